"""Panels: dragged, pressed and raised, by one finger and by many."""
from hands import Mouse
from picture import H, W
from play_stop import OTHER, PALM, Stop


class Panels(Stop):
    def play_panels(self):
        desk = self.desk

        # W1 is dragged onto W2 and lies on top
        self.go(60, 240)
        self.shot("over W1")
        self.press()
        desk.top(1)
        self.slide("drag W1", (190, 290), dragged=1)
        self.let_go()

        # both buttons have this point: the press is W1's
        self.go(250, 322)
        self.press()
        desk.held = {1}
        self.shot("press the overlap")
        self.let_go()
        desk.held, desk.reverse = set(), {1}
        self.shot("W1 is thrown")

        # W2 is raised by its bar, and the same point is W2's
        self.click(320, 240)
        desk.top(2)
        self.shot("raise W2")
        self.click(250, 322)
        desk.reverse = {1, 2}
        self.shot("press the overlap again")

        # a jump so far that the pointer leaves the panel and the screen's edge holds it
        self.go(60, 362)
        self.press()
        desk.top(4)
        self.shot("grab W4")
        self.go(790, 20)
        desk.at[4] = 652, 10
        self.shot("jump to the corner")
        self.let_go()
        self.go(400, 200)
        self.shot("beside W4")

    def play_slides(self):
        desk = self.desk

        # W5's button is pressed and let go over W6's: nobody's turnout is thrown
        self.go(300, 420)
        self.press()
        desk.top(5)
        desk.held = {5}
        self.shot("press W5")
        self.slide("slide to W6", (440, 420))
        self.shot("slid to W6")
        self.let_go()
        desk.held = set()
        self.shot("let go over W6")

        # the plan is pressed and let go over W5's button: nobody's turnout is thrown
        self.go(560, 220)
        self.press()
        self.slide("slide to W5", (300, 420))
        self.let_go()
        self.click(380, 240)
        desk.top(3)
        self.shot("let go over W5")

    def play_fingers(self):
        """Two fingers drag a panel each, and hold a button each."""
        desk = self.desk
        self.go(380, 240)
        self.press()
        desk.top(3)
        self.finger("down", OTHER, 210, 360)
        desk.top(5)
        self.shot("two fingers on two bars")
        for k in range(1, 4):
            self.go(380 + 40 * k, 240 - 30 * k)
            desk.at[3] = 368 + 40 * k, 230 - 30 * k
            self.shot(f"the first drags {k}")
            self.finger("move", OTHER, 210 - 50 * k, 360 + 2 * k)
            desk.at[5] = 196 - 50 * k, 352 + 2 * k
            self.shot(f"the second drags {k}")
        self.let_go()
        desk.pointer = self.at
        self.shot("the first lets go")
        self.finger("move", OTHER, 110, 362)
        desk.at[5] = 96, 354
        self.shot("the second drags on")
        self.finger("move", OTHER, 2000, 470)
        desk.at[5] = 652, 372
        self.shot("the second leaves the screen")
        self.finger("up", OTHER, 2000, 470)
        desk.pointer = 799, 470

        # both hold a button, and who pressed first lets go first, beside the other's
        self.go(562, 207)
        self.press()
        desk.top(3)
        self.finger("down", OTHER, 720, 440)
        desk.top(5)
        desk.held = {3, 5}
        self.shot("two fingers on two buttons")
        self.let_go()
        desk.held, desk.pointer, desk.reverse = {5}, self.at, {1, 2, 3}
        self.shot("the first throws its own")
        self.finger("up", OTHER, 720, 440)
        desk.held, desk.reverse = set(), {1, 2, 3, 5}
        self.shot("the second throws its own")

    def play_one_panel(self):
        """Two fingers on one panel: it is the last one's."""
        desk = self.desk
        self.finger("down", PALM, 520, 150)
        desk.top(3)
        self.go(600, 150)
        self.press()
        self.shot("two fingers on W3's bar")
        self.finger("move", PALM, 300, 300)
        self.shot("the first drags nothing")
        self.go(580, 180)
        desk.at[3], desk.pointer = (468, 170), self.at
        self.shot("the second drags W3")
        self.finger("up", PALM, 300, 300)
        self.go(600, 150)
        desk.at[3], desk.pointer = (488, 140), self.at
        self.shot("the second still drags W3")
        self.let_go()

    def play_crowd(self):
        """More fingers than the desk has places for, and none is let go."""
        for n in range(100, 130):
            self.finger("down", n, 580 + n - 100, 20)
        self.stop("stop beside thirty fingers")
        self.reset("reset beside thirty fingers")
        self.click(562, 207)
        self.desk.reverse = {1, 2, 5}
        self.desk.top(3)
        self.shot("W3 beside thirty fingers")

    def resize(self, w, h):
        """Waits until the server has done it."""
        self.screen.xdotool(f"search --name ^desk$ windowsize --sync {w} {h}")
        self.program.ready()

    def play_size(self):
        """The window gets half its size: the stop is where it is seen."""
        self.resize(W // 2, H // 2)
        self.hand.go(345, 165)
        self.hand.press()
        self.hand.let_go()
        self.resize(W, H)
        inside = 0 if isinstance(self.hand, Mouse) else 1  # a finger is in the middle of a pixel
        self.desk.press(690 + inside, 330 + inside)
        self.desk.stopped, self.desk.pointer = True, (690, 330)
        self.shot("stop in a small window")
        self.reset("reset in the window")

    def play_burst(self):
        """Press, moves and release happen together."""
        x, y = self.desk.at[3]
        x, y = x + 12, y + 10
        self.desk.press(x, y)
        moves = f"move 1 {x + 70} {y + 10}", f"move 1 {x - 60} {y + 30}"
        self.program.lines(f"down 1 {x} {y}", *moves, f"up 1 {x - 60} {y + 30}", "move 1 400 20")
        self.desk.top(3)
        self.desk.at[3], self.desk.pointer = (x - 72, y + 20), (400, 20)
        self.shot("burst")
