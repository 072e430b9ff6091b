"""What changes by itself, the lens, dimming, displays, files, and the wrong desks beside the right one."""
import copy

from hands import Mouse
from picture import STOP, H, W
from play_panels import Panels
from screen import LEFT, TOP, Wrong
from shots import FIGURES

STRIP = (H - H // 8) // 2  # the window's row where eight displays begin


class More(Panels):
    def time(self, milliseconds):
        self.program.lines(f"time {milliseconds}")
        self.desk.now += milliseconds

    def play_time(self):
        """Signals change by themselves, and the stop blinks."""
        for k in range(1, 5):
            self.time(2000)
            self.shot(f"aspect {k}")
        self.stop("stop in time")
        for k in range(1, 3):
            self.time(500)
            self.shot(f"blink {k}")
        self.time(2000)
        self.shot("signals are red")
        self.reset("reset in time")

    def play_lens(self):
        """It shows the plan magnified, is dragged, and shows what changes under it."""
        desk = self.desk
        self.key("l")
        desk.lens = 600, 170
        self.shot("lens")
        self.go(680, 230)
        self.press()
        for k in range(1, 4):
            self.go(680 - 150 * k, 230 - 40 * k)
            desk.lens = 600 - 150 * k, 170 - 40 * k
            self.shot(f"drag the lens {k}")
        self.let_go()
        for button, factor in (4, 4), (5, 2), (5, 1), (4, 2):
            self.screen.xdotool(f"mousemove {LEFT + 230} {TOP + 110} click {button}")
            self.program.ready()
            desk.factor, desk.pointer = factor, (230, 110)
            self.shot(f"lens by {factor}")
        for percent, factor in (6, 2), (6, 4), (-6, 4), (-6, 2):
            self.program.lines(f"gesture {percent}")
            desk.factor = factor
            self.shot(f"lens by {factor} after {percent}")
        n = desk.order[-1]
        x, y = desk.at[n]
        self.click(x + 70, y + 70)
        desk.reverse ^= {n}
        desk.top(n)
        self.shot("a turnout under the lens")
        self.key("l")
        desk.lens = None
        self.shot("no lens")

    def play_dimming(self):
        self.key("d")
        self.desk.dimmed = True
        self.shot("dimmed")
        self.key("d")
        self.desk.dimmed = False
        self.shot("not dimmed")

    def play_maximised(self):
        """The panel on top fills its display; the stop is above it."""
        desk, n = self.desk, self.desk.order[-1]
        self.key("m")
        desk.maximised = n
        self.shot("maximised")
        self.click(400, 250)
        desk.reverse ^= {n}
        self.shot("thrown while it is maximised")
        self.stop("stop above a maximised panel")
        self.reset("reset above a maximised panel")
        self.key("m")
        desk.maximised = None
        self.shot("not maximised")

    def play_portions(self):
        """Keys of the throttle between the portions of a redraw."""
        desk, n = self.desk, self.desk.order[-1]
        self.key("o")
        self.key("Up")
        self.key("Up")
        x, y = desk.at[n]
        self.go(x + 30, y + 10)
        self.press()
        self.slide("drag in portions", (x + 60, y - 20), dragged=n)
        self.let_go()
        self.key("o")
        self.shot("no portions")

    def play_sheet(self):
        said = self.key("p")
        if not said or "answer 0" not in said[-1]:
            raise Wrong(f"sheet: the desk said {said}")

    def strip(self, name):
        """Eight displays in the window, one pixel of eight by eight. The figures are left out here too."""
        whole, got = self.desk.picture(), self.screen.pixels()
        want = bytearray(4 * W * H)
        for y in range(H // 8):
            row = 4 * 8 * W * (8 * y + 4)
            for x in range(W):
                at = 4 * (W * (STRIP + y) + x)
                want[at : at + 4] = whole[row + 4 * (8 * x + 4) : row + 4 * (8 * x + 5)]
            if y < 2:
                start, end = (4 * (W * (STRIP + y) + x) for x in (FIGURES // 8, W // 8))
                want[start:end] = got[start:end]
        self.compare(name, bytes(want), got)

    def on_strip(self, x, y):
        """Goes to the pixel of the window that shows a point; gives the point of the strip that it is for the desk."""
        self.hand.go(x // 8, STRIP + y // 8)
        inside = 0 if isinstance(self.hand, Mouse) else 4
        self.at = x // 8 * 8 + inside, y // 8 * 8 + inside
        return self.at

    def play_displays(self):
        """Eight displays as a strip. A panel goes to the last one and comes back when that is not there any more."""
        desk, n = self.desk, self.desk.order[-1]
        self.key("8")
        desk.displays, desk.pointer = 8, None
        self.strip("eight displays")
        (left, top), (x, y) = desk.at[n], self.on_strip(desk.at[n][0] + 40, desk.at[n][1] + 12)
        self.press()
        self.strip("grab on the strip")
        to = self.on_strip(6240, 80)
        desk.at[n] = min(left + to[0] - x, 8 * W - 148), top + to[1] - y
        desk.pointer = to
        self.strip("drag to the last display")
        self.let_go()
        self.on_strip(688, 328)
        self.press()
        desk.stopped = True
        self.strip("stop on the strip")
        self.let_go()
        self.on_strip(660, 360)
        self.press()
        desk.held = {STOP}
        desk.pointer = self.on_strip(730, 360)
        self.strip("slide on the strip")
        self.let_go()
        desk.held, desk.stopped = set(), False
        self.strip("reset on the strip")
        self.key("8")
        desk.displays, desk.pointer = 1, None
        desk.at[n] = W - 20, desk.at[n][1]
        self.shot("one display again")

    def beside(self, name, wrong):
        """The right desk is as it should be, and the wrong one on its right as it may not be."""
        self.shot(name)
        got = self.screen.pixels(1)
        self.compare(f"{name}, beside", self.without_figures(wrong.picture(), got), got)

    def play_beside(self):
        """The wrong desks beside the right one: a panel is stale, and a press on the stop goes through to a panel."""
        desk, n = self.desk, self.desk.order[-2]
        x, y = desk.at[n]
        self.key("b")
        stale = copy.deepcopy(desk)
        stale.pointer = None
        self.beside("nothing is marked", stale)
        self.click(x + 70, y + 70)
        desk.reverse ^= {n}
        desk.top(n)
        self.shot("thrown on the right desk")
        if self.screen.pixels(1) == self.screen.pixels():
            raise Wrong("thrown on the right desk: the wrong one is not stale")
        self.key("b")
        self.go(x + 30, y + 10)
        self.press()
        self.go(680, 340)
        desk.at[n] = 650, 330
        low = copy.deepcopy(desk)
        low.above_stop = {n}
        self.beside("under the stop, and above it", low)
        self.let_go()
        self.click(720, 375)
        low.press(720, 375)
        low.pointer, desk.stopped = (720, 375), True
        low.reverse ^= {n}
        self.beside("the press goes through", low)
        self.key("b")
        self.shot("the right desk alone")
        self.reset("reset of the right desk")

    def play_again(self):
        """The desk is there again as it was left, also stopped."""
        desk = self.desk
        self.stop("stop before the end")
        self.program.end()
        self.screen.environment.pop("ROQSHYN_RECORD", None)  # the recording is that of the desk until here
        self.program = self.hand.program = self.start()
        self.program.ready()
        desk.now, desk.pressed, desk.pointer = 0, "", None
        self.shot("the desk again")
        self.reset("reset after the end")
