"""film.py DESK PICTURE.png FILM.png: plays a panel's drag over the stop, a press on the stop and its reset on the
program DESK, as scene.py does, by finger. It writes one picture of it, and all of it as an animated PNG."""
import os
import struct
import sys
import tempfile
import zlib
from pathlib import Path

from picture import H, W
from screen import Program, Screen

sys.path.append(str(Path(__file__).parents[2] / "tools"))
from to_png import chunk  # noqa: E402

SIGNATURE = b"\x89PNG\r\n\x1a\n"


class Film:
    """Pictures, each with how long it is seen, in milliseconds. All have the same few colours."""

    def __init__(self, screen, program):
        self.screen, self.program, self.frames = screen, program, []

    def do(self, line, milliseconds=60):
        self.program.lines(line)
        self.frames.append((self.screen.pixels(), milliseconds))

    def slide(self, start, end, steps, last="up"):
        (x, y), (to_x, to_y) = start, end
        self.do(f"down 1 {x} {y}", 300)
        for k in range(1, steps + 1):
            self.do(f"move 1 {x + (to_x - x) * k // steps} {y + (to_y - y) * k // steps}")
        self.do(f"{last} 1 {to_x} {to_y}", 500)

    def play(self):
        self.slide((60, 240), (230, 300), 8)
        self.do("down 1 250 350", 200)
        self.do("up 1 250 350", 400)
        self.slide((400, 362), (620, 320), 14)
        picture = len(self.frames) - 1
        self.slide((620, 320), (560, 250), 6)
        self.do("down 1 690 340", 500)
        for _ in range(4):
            self.do("time 500", 500)
        self.do("up 1 690 340", 100)
        self.slide((660, 360), (730, 360), 6)
        self.do("time 2000", 1500)
        return picture

    def body(self, pixels, colours):
        """A picture's rows, each pixel by the place of its colour."""
        places = {colour: k for k, colour in enumerate(colours)}
        line = bytes(places[pixels[i : i + 4]] for i in range(0, len(pixels), 4))
        return zlib.compress(b"".join(b"\0" + line[W * y : W * (y + 1)] for y in range(H)), 9)

    def png(self, frames):
        colours = sorted({pixels[i : i + 4] for pixels, _ in frames for i in range(0, len(pixels), 4)})
        palette = b"".join(bytes((c[2], c[1], c[0])) for c in colours)
        parts = [chunk(b"IHDR", struct.pack(">IIBBBBB", W, H, 8, 3, 0, 0, 0)), chunk(b"PLTE", palette)]
        if len(frames) == 1:
            return SIGNATURE + b"".join(parts + [chunk(b"IDAT", self.body(frames[0][0], colours)), chunk(b"IEND", b"")])
        parts.append(chunk(b"acTL", struct.pack(">II", len(frames), 0)))
        number = 0
        for pixels, milliseconds in frames:
            parts.append(chunk(b"fcTL", struct.pack(">IIIIIHHBB", number, W, H, 0, 0, milliseconds, 1000, 0, 0)))
            number += 1
            body = self.body(pixels, colours)
            parts.append(chunk(b"IDAT", body) if number == 1 else chunk(b"fdAT", struct.pack(">I", number) + body))
            number += number > 1
        return SIGNATURE + b"".join(parts + [chunk(b"IEND", b"")])


def main(program, picture, film):
    with tempfile.TemporaryDirectory() as room:
        started = []
        try:
            screen = Screen(room, started)
            screen.xdotool("mousemove 5 5")
            made = Film(screen, Program(screen, [os.path.abspath(program)], started))
            best = made.play()
            Path(picture).write_bytes(made.png([made.frames[best]]))
            Path(film).write_bytes(made.png(made.frames))
        finally:
            for one in reversed(started):
                one.kill()
                one.wait()


main(*sys.argv[1:])
