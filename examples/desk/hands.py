"""What plays on the desk: the mouse of xdotool, or a finger of driver.c."""
from screen import LEFT, TOP


class Mouse:
    def __init__(self, screen, program):
        self.screen, self.program = screen, program

    def do(self, words):
        self.screen.xdotool(words)
        return self.program.ready()

    def go(self, x, y):
        self.do(f"mousemove {LEFT + x} {TOP + y}")
        return x, y

    def press(self):
        self.do("mousedown 1")

    def let_go(self):
        self.do("mouseup 1")


class Finger:
    """It is heard of only while it is down."""

    def __init__(self, _, program):
        self.program, self.down, self.at = program, False, None

    def go(self, x, y):
        self.at = x, y
        if self.down:
            self.program.lines(f"move 1 {x} {y}")
        return self.at if self.down else None

    def press(self):
        self.down = True
        self.program.lines(f"down 1 {self.at[0]} {self.at[1]}")

    def let_go(self):
        self.down = False
        self.program.lines(f"up 1 {self.at[0]} {self.at[1]}")
