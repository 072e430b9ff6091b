"""The emergency stop: every press on it stops, it latches, and a slide alone resets it."""
from picture import STOP
from screen import LEFT, TOP
from shots import Shots

PALM, OTHER = 7, 8  # fingers beside the one that plays


class Stop(Shots):
    def stop(self, name):
        self.go(690, 330)
        self.press()
        self.desk.held, self.desk.stopped = set(), True
        self.shot(name)
        self.let_go()

    def reset(self, name):
        self.go(660, 360)
        self.press()
        self.slide(name, (730, 360))
        self.let_go()
        self.desk.stopped = False
        self.shot(name)

    def play_stop(self):
        """The stop takes every press that it could take, latches, and is reset by a slide alone."""
        desk = self.desk

        # W6 is dragged under the emergency stop and is on top of the other panels; the press that both could take is
        # the stop's
        self.go(400, 362)
        self.press()
        desk.top(6)
        self.shot("grab W6")
        self.slide("drag W6", (600, 312), dragged=6)
        self.let_go()
        self.go(660, 360)
        self.press()
        desk.stopped = True
        self.shot("stop")

        # the press that stopped slides as one that resets
        self.slide("slide on the stop", (730, 360))
        self.let_go()
        self.shot("stopped by a slide")

        # a second press leaves it stopped, and a turnout refuses
        self.click(690, 330)
        self.shot("a second press")
        self.go(620, 390)
        self.press()
        self.shot("press W6")
        self.let_go()
        self.shot("W6 is not thrown")

        # a press on the knob does not reset, nor half a slide
        self.go(660, 360)
        self.press()
        desk.held = {STOP}
        self.shot("hold the knob")
        self.slide("half a slide", (700, 360))
        self.let_go()
        desk.held = set()
        self.shot("let go in the middle")
        self.reset("reset")

        # by whichever button of the mouse, and by its key
        self.screen.xdotool(f"mousemove {LEFT + 690} {TOP + 330} mousedown 3")
        self.program.ready()
        desk.press(690, 330)
        desk.pointer, desk.stopped = (690, 330), True
        self.shot("stop by another button")
        self.screen.xdotool("mouseup 3")
        self.program.ready()
        self.reset("reset again")
        self.key("space")
        desk.stopped = True
        self.shot("stop by its key")
        self.reset("reset after its key")

        # a finger that SDL gives as a mouse too: the press that stopped would be the next one as well, and slide
        self.program.lines(f"down {OTHER} 660 360", "as-mouse 660 360")
        desk.press(660, 360)
        desk.pointer, desk.stopped = (660, 360), True
        self.shot("a finger as a mouse too")
        self.finger("up", OTHER, 660, 360)
        self.reset("reset after a finger as a mouse too")

    def play_palm(self):
        """A palm or a second finger is down and stays."""
        desk = self.desk

        # on the plan
        self.finger("down", PALM, 560, 220)
        self.stop("stop beside a palm")
        self.finger("up", PALM, 560, 220)
        self.reset("reset beside a palm")

        # on W3's button, where it is let go when all is over: W3 is not thrown
        self.finger("down", PALM, 440, 297)
        desk.top(3)
        desk.held = {3}
        self.shot("hold W3")
        self.stop("stop while W3 is held")
        self.reset("reset while W3 is held")
        self.finger("up", PALM, 440, 297)
        self.shot("let go of W3")

        # on the stop: a second finger on it leaves it stopped
        self.finger("down", PALM, 690, 330)
        desk.stopped = True
        self.shot("a palm on the stop")
        self.click(690, 330)
        self.shot("two fingers on the stop")
        self.finger("up", PALM, 690, 330)
        self.reset("reset after two fingers")

        # on the plan, and W3 is thrown
        self.finger("down", PALM, 560, 220)
        self.click(440, 297)
        desk.reverse = {1, 2, 3}
        self.shot("W3 beside a palm")
        self.finger("up", PALM, 560, 220)
        desk.pointer = 560, 220

    def play_disturbed(self):
        """A slide does not reset during which somebody presses the stop, or its key."""
        self.stop("stop once more")
        for again in "finger", "key":
            self.go(660, 360)
            self.press()
            self.slide("slide", (700, 360))
            if again == "finger":
                self.finger("down", OTHER, 690, 330)
                self.finger("up", OTHER, 690, 330)
            else:
                self.key("space")
            self.go(730, 360)
            self.let_go()
            self.desk.pointer = 730, 360
            self.shot(f"a slide, and the stop is pressed by a {again}")
        self.reset("reset once more")

    def play_lost(self):
        """A release that is lost: of a finger, of the finger that presses next, and of the mouse."""
        desk = self.desk
        self.finger("down", OTHER, 440, 297)
        desk.held = {3}
        self.shot("press W3, and the release is lost")
        self.stop("stop after a lost release")
        self.reset("reset after a lost release")
        self.finger("down", OTHER, 440, 297)
        self.click(440, 297)
        desk.reverse = {1, 2}
        self.shot("W3 after a lost release")

        # W3 is dragged, the release is lost, and the same finger presses the stop and slides: W3 stays where it is
        self.finger("down", OTHER, 400, 240)
        self.finger("down", OTHER, 690, 330)
        desk.stopped = True
        self.shot("the same finger on the stop")
        self.finger("move", OTHER, 700, 300)
        self.finger("up", OTHER, 690, 330)
        self.shot("the same finger slides")
        self.reset("reset after the same finger")

        # the mouse moves with no button down, although none was let go
        self.screen.xdotool(f"mousemove {LEFT + 440} {TOP + 297} mousedown 1")
        self.program.ready()
        desk.press(440, 297)
        desk.pointer, desk.held = (440, 297), {3}
        self.shot("press W3 by the mouse")
        self.program.lines("motion 440 300")
        desk.pointer, desk.held = (440, 300), set()
        self.shot("the mouse lost its release")
        self.screen.xdotool("mouseup 1")
        self.program.ready()
        self.shot("the mouse's release comes late")

    def play_left(self):
        """The mouse leaves the window, with W3's button held and without."""
        desk = self.desk
        self.mouse(440, 240)
        desk.pointer = 440, 240
        self.shot("the mouse is over W3")
        self.mouse(850, 20)  # beside W4
        desk.pointer = None
        self.shot("the mouse is gone")
        self.mouse(440, 297, "mousedown 1")
        desk.press(440, 297)
        desk.pointer, desk.held = (440, 297), {3}
        self.shot("W3 is held by the mouse")
        self.mouse(-50, 100)
        desk.pointer = None
        self.shot("the mouse leaves with W3")
        self.finger("down", OTHER, 690, 330)
        desk.held, desk.stopped = set(), True
        self.shot("stop while the mouse is away")
        self.finger("up", OTHER, 690, 330)
        self.mouse(-50, 100, "mouseup 1")
        desk.pointer = None
        self.reset("reset while the mouse is away")
        self.mouse(440, 297, "mousedown 1")
        self.mouse(-50, 100, "mouseup 1")
        desk.press(440, 297)
        desk.pointer = None
        self.shot("let go beside the window")

    def mouse(self, x, y, words=""):
        """The mouse, whoever plays."""
        self.screen.xdotool(f"mousemove {LEFT + x} {TOP + y} {words}")
        self.program.ready()

    def play_focus(self):
        """W3's button is pressed, and the window loses the focus: W3 is not thrown, although the release comes. The
        stop is there as ever."""
        desk = self.desk
        self.go(440, 297)
        self.press()
        desk.held = {3}
        self.shot("press W3")
        self.screen.xdotool("windowfocus 1")  # X's number for no window
        self.program.ready()
        desk.held = set()
        self.shot("the focus is lost")
        self.let_go()
        self.shot("let go without the focus")
        self.stop("stop without the focus")
        self.reset("reset without the focus")

        # the focus comes back together with a press on the stop
        self.screen.xdotool(f"search --name ^desk$ windowfocus mousemove {LEFT + 690} {TOP + 330} mousedown 1")
        self.program.ready()
        desk.press(690, 330)
        desk.pointer, desk.stopped = (690, 330), True
        self.shot("a press that brings the focus")
        self.mouse(690, 330, "mouseup 1")
        self.reset("reset with the focus")
