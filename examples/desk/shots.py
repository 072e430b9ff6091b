"""A scene's state and its pictures: what was done on the desk, and what it has to show."""
import sys
from pathlib import Path

from picture import H, W, Desk
from screen import Wrong

sys.path.append(str(Path(__file__).parents[2] / "tools"))
from to_png import png  # noqa: E402

FIGURES = 4 + 30 * 8  # where the status line's figures begin


class Shots:
    def __init__(self, screen, start, folder, hand):
        self.screen, self.start, self.folder = screen, start, folder
        self.program = start()
        self.program.ready()
        self.hand = hand(screen, self.program)
        self.desk = Desk()
        self.at = None
        self.shots = 0

    def go(self, x, y):
        self.at = x, y
        self.desk.pointer = self.hand.go(x, y) or self.desk.pointer

    def press(self):
        self.desk.pointer = self.at
        self.desk.press(*self.at)
        self.hand.press()

    def let_go(self):
        self.hand.let_go()

    def click(self, x, y):
        self.go(x, y)
        self.press()
        self.let_go()

    def finger(self, word, n, x, y):
        """Another finger."""
        self.desk.pointer = min(x, W - 1), min(y, H - 1)
        if word == "down":
            self.desk.press(x, y)
        return self.program.lines(f"{word} {n} {x} {y}")

    def shot(self, name):
        got = self.screen.pixels()
        self.compare(name, self.without_figures(self.desk.picture(), got), got)

    def without_figures(self, want, got):
        """The figures of the status line are taken as they are, since nobody but the library knows them."""
        want = bytearray(want)
        for y in range(16):
            start, end = 4 * (W * y + FIGURES), 4 * W * (y + 1)
            want[start:end] = got[start:end]
        return bytes(want)

    def compare(self, name, want, got):
        self.shots += 1
        if got == want:
            return
        self.write(name, got)
        self.write(f"{name}, as painted", want)
        differ = sum(got[i : i + 4] != want[i : i + 4] for i in range(0, len(want), 4))
        raise Wrong(f"{name}: {differ} of {W * H} pixels differ")

    def write(self, name, pixels):
        if self.folder == "-":
            return
        rgb = bytearray(3 * W * H)
        rgb[0::3], rgb[1::3], rgb[2::3] = pixels[2::4], pixels[1::4], pixels[0::4]
        Path(self.folder, f"{name}.png").write_bytes(png(W, H, bytes(rgb)))

    def slide(self, name, to, dragged=None, steps=5):
        """The pointer goes on in steps; where it drags a panel each step has a shot."""
        (x, y), desk = self.at, self.desk
        for k in range(1, steps + 1):
            before = self.at
            self.go(x + (to[0] - x) * k // steps, y + (to[1] - y) * k // steps)
            if dragged:
                left, top = desk.at[dragged]
                desk.at[dragged] = left + self.at[0] - before[0], top + self.at[1] - before[1]
                self.shot(f"{name} {k}")

    def key(self, name):
        self.screen.xdotool(f"key {name}")
        return self.program.ready()
