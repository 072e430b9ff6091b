"""The desk painted without the library: window by window from the lowest, the emergency stop last, every pixel of the
screen."""

W, H, PW, PH = 800, 480, 148, 108
DARK, PAPER, BLUE, LIGHT, GREEN, AMBER, WHITE = 0x141418, 0xCDD4DC, 0x285A96, 0x4682C8, 0x3CBE5A, 0xF0B428, 0xFFFFFF
GROUND, ALARM, RAIL, ROUTE, RED, DEAD, GREY = 0x181E26, 0x821414, 0x5A6470, 0xE6EBF0, 0xDC1E1E, 0x646C74, 0x8A929A
STOP = 640, 310, 112, 72
LW, LH, EDGE = 164, 124, 4
LETTERS = "0123456789ABCDEFGHILMNOPRSTUVWY+-(),>"
ROWS = """75557 26227 61747 61617 55711 74616 34757 71122 75757 75716 25755 65656 34443 65556 74647 74644 34553 55755 72227
44447 57755 65555 75557 75744 65655 34216 72222 55557 55552 55577 55222 02720 00700 12221 42224 00024 42124"""
DIMMED = bytes((i * i + 127) // 255 for i in range(256))
FONT = dict(zip(LETTERS, ROWS.split())) | {" ": "00000"}


class Desk:
    """Where the panels lie, lowest first, how the turnouts lie, which buttons are held (STOP: its knob), whether the
    desk is stopped, what time it is, and where the last event was."""

    def __init__(self):
        self.at = {n: (24 + (n - 1) % 3 * 172, 230 + (n - 1) // 3 * 122) for n in range(1, 7)}
        self.order = list(range(1, 7))
        self.reverse = set()
        self.held = set()
        self.stopped = self.dimmed = False
        self.maximised = None
        self.lens, self.factor = None, 2
        self.displays = 1
        self.above_stop = set()  # panels that lie above the stop, on a desk whose stop has no layer of its own
        self.pressed = ""
        self.now = 0
        self.pointer = None

    def top(self, n):
        self.order.remove(n)
        self.order.append(n)

    def rect(self, n):
        """That of a panel; a maximised one is on the first display."""
        return (0, 0, W, H) if n == self.maximised else (*self.at[n], PW, PH)

    def hit(self, x, y):
        """The topmost window at a point, by its name, and the point in it."""
        panels = [(f"W{n}", self.rect(n)) for n in reversed(self.order)]
        windows = panels[: len(self.above_stop)] + [("STOP", STOP)] + panels[len(self.above_stop) :]
        if self.lens:
            windows.insert(1, ("LENS", (*self.lens, LW, LH)))
        for name, (left, top, w, h) in windows:
            if left <= x < left + w and top <= y < top + h:
                return name, x - left, y - top
        return f"PLAN {x // W + 1}", x % W, y

    def press(self, x, y):
        name, left, top = self.hit(x, y)
        self.pressed = f"({x},{y}) > {name} ({left},{top})"

    def under(self):
        """The topmost panel under the last event, if there is one."""
        if self.pointer is None:
            return None
        name = self.hit(*self.pointer)[0]
        return int(name[1]) if name[0] == "W" else None

    def share(self, n):
        """How many of a panel's pixels are in view, of a hundred."""
        left, top, w, h = self.rect(n)
        above = [self.rect(other) for other in self.order[self.order.index(n) + 1 :]]
        above += [] if n in self.above_stop else [STOP]
        above += [(*self.lens, LW, LH)] if self.lens else []
        seen = 0
        for y in range(top, top + h):
            covered = [(max(x, left), min(x + v, left + w)) for x, t, v, u in above if t <= y < t + u and x < left + w and left < x + v]
            last = left
            for start, end in sorted(covered):
                seen += max(0, start - last)
                last = max(last, end)
            seen += left + w - last
        return 100 * seen // (w * h)

    def picture(self):
        """Its bytes: blue, green, red and 0 of each pixel. The lens lies above all panels."""
        self.width = W * self.displays
        self.pixels = bytearray(4 * self.width * H)
        for k in range(self.displays):
            self.plan(k)
        self.letters(self.pressed, 4, 3, 2, ROUTE)
        seen = bytes(self.pixels)
        for n in self.order:
            self.panel(n, *self.rect(n))
        if self.lens:
            self.glass(*self.lens, seen)
        self.stop(*STOP)
        for n in self.order:
            if n in self.above_stop:
                self.panel(n, *self.rect(n))
        return bytes(self.pixels).translate(DIMMED) if self.dimmed else bytes(self.pixels)

    def glass(self, left, top, plans):
        """The lens: the plan under its middle, magnified."""
        w, h, factor = LW - 2 * EDGE, LH - 2 * EDGE, self.factor
        x, y = left + LW // 2, top + LH // 2
        start = x // W * W
        x, y = max(0, x % W - w / 2 / factor), max(0, y - h / 2 / factor)
        self.fill(left, top, LW, LH, AMBER)
        for j in range(h):
            for i in range(w):
                column, row = int(x + i / factor), int(y + j / factor)
                at = 4 * (row * self.width + start + column)
                inside = column < W and row < H
                to = 4 * ((top + EDGE + j) * self.width + left + EDGE + i)
                self.pixels[to : to + 4] = plans[at : at + 4] if inside else bytes(4)

    def fill(self, x, y, w, h, colour):
        left, right = max(x, 0), min(x + w, self.width)
        row = colour.to_bytes(4, "little") * (right - left)
        for line in range(max(y, 0), min(y + h, H)):
            start = 4 * (line * self.width + left)
            self.pixels[start : start + len(row)] = row

    def letters(self, text, x, y, size, ink):
        for k, c in enumerate(text):
            for row, digit in enumerate(FONT[c]):
                for column in range(3):
                    if int(digit) >> (2 - column) & 1:
                        self.fill(x + (4 * k + column) * size, y + row * size, size, size, ink)

    def plan(self, display):
        left = display * W
        self.fill(left, 0, W, H, ALARM if self.stopped else GROUND)
        self.fill(left, 70, W, 6, RAIL)
        self.fill(left, 130, W, 6, RAIL)
        if self.stopped:
            self.letters("STOPPED", left + 24, 182, 7, WHITE)
        for k in range(3):
            self.signal(left + 320 + 160 * k, 180, 0 if self.stopped else (self.now // 2000 + 3 * display + k) % 4)
        for n in range(1, 7) if display == 0 else ():
            self.turnout(n, 40 + 124 * (n - 1))

    def signal(self, x, y, aspect):
        """Red, amber above red, amber, green."""
        lit = ({RED}, {AMBER, RED}, {AMBER}, {GREEN})[aspect]
        self.fill(x, y, 16, 40, DARK)
        for k, lamp in enumerate((GREEN, AMBER, RED)):
            self.fill(x + 3, y + 3 + 12 * k, 10, 10, lamp if lamp in lit else RAIL)

    def turnout(self, n, x):
        y, step = (70, 5) if n % 2 else (130, -5)
        self.letters(f"W{n}", x + 4, 44 if n % 2 else 148, 3, RAIL)
        straight = [(x, y, 54, 6)]
        across = [(x + 4 * i, y + step * i, 6, 6) for i in range(13)]
        legs = (straight, across) if n in self.reverse else (across, straight)
        for leg, colour in zip(legs, (RAIL, ROUTE)):
            for part in leg:
                self.fill(*part, colour)

    def stop(self, x, y, w, h):
        white = self.stopped and self.now // 500 % 2 == 0
        self.fill(x, y, w, h, AMBER)
        self.fill(x + 6, y + 6, w - 12, h - 12, WHITE if white else RED)
        self.letters("STOP", x + 19, y + (10 if self.stopped else 24), 5, RED if white else WHITE)
        if self.stopped:
            self.fill(x + 6, y + 38, w - 12, h - 44, DARK)
            self.fill(x + 12, y + 50, w - 24, 4, RAIL)
            self.fill(x + 12, y + 42, 24, 20, WHITE if STOP in self.held else AMBER)
            self.fill(x + w - 36, y + 42, 24, 20, RAIL)
            self.fill(x + w - 34, y + 44, 20, 16, DARK)

    def panel(self, n, x, y, w, h):
        self.fill(x, y, w, h, DARK)
        self.fill(x + 1, y + 1, w - 2, h - 2, PAPER if self.share(n) >= 50 else GREY)
        self.fill(x + 1, y + 1, w - 2, 26, LIGHT if n == self.under() else BLUE)
        self.letters(f"W{n}", x + 8, y + 6, 3, WHITE)
        self.fill(x + 14, y + 40, w - 28, h - 54, DARK)
        face = DEAD if self.stopped else WHITE if n in self.held else AMBER if n in self.reverse else GREEN
        self.fill(x + 16, y + 42, w - 32, h - 58, face)
        self.letters("-" if n in self.reverse else "+", x + w // 2 - 9, y + 40 + (h - 54) // 2 - 15, 6, DARK)
