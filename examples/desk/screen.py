"""A screen of its own for the desk: Xvfb, whose pixels lie in a file, and the desk in the middle of it."""
import mmap
import os
import select
import struct
import subprocess
import sys
from pathlib import Path

from picture import H, W

WIDTH, HEIGHT = 3 * W, 640  # room for a second desk on the right
LEFT, TOP = (WIDTH - W) // 2, (HEIGHT - H) // 2
PATIENCE = 60  # seconds until a program has to answer


class Wrong(Exception):
    """The desk is not as it should be."""


class Screen:
    def __init__(self, folder, started):
        read, write = os.pipe()
        words = ["-displayfd", str(write), "-fbdir", folder, "-screen", "0", f"{WIDTH}x{HEIGHT}x24", "-nocursor", "-noreset", "-nolisten", "tcp"]
        self.server = subprocess.Popen(["Xvfb", *words], pass_fds=[write], stderr=subprocess.DEVNULL)
        started.append(self.server)
        os.close(write)
        # The line has the number of its display, and is written once it answers; it is empty where it has ended.
        with os.fdopen(read) as said:
            number = said.readline().strip() if select.select([read], [], [], PATIENCE)[0] else ""
        if not number:
            sys.exit("Xvfb does not start")
        self.environment = os.environ | {"DISPLAY": f":{number}", "SDL_VIDEODRIVER": "x11"}
        with Path(folder, "Xvfb_screen0").open("rb") as file:
            self.bytes = mmap.mmap(file.fileno(), 0, access=mmap.ACCESS_READ)
        # XWD begins with numbers, of which these say where the pixels are.
        numbers = struct.unpack(">25I", self.bytes[:100])
        self.start, self.row = numbers[0] + 12 * numbers[19], numbers[12]

    def pixels(self, column=0):
        """Blue, green, red and 0 of each pixel of the desk, or of the one on its right."""
        first = self.start + 4 * (LEFT + column * W)
        rows = (self.bytes[first + y * self.row : first + y * self.row + 4 * W] for y in range(TOP, TOP + H))
        pixels = bytearray(b"".join(rows))
        pixels[3::4] = bytes(W * H)
        return bytes(pixels)

    def xdotool(self, words):
        """The server has answered when this returns, so it has sent to the desk what comes of it."""
        words = [*words.split(), "getmouselocation"]
        subprocess.run(["xdotool", *words], env=self.environment, check=True, stdout=subprocess.DEVNULL, timeout=PATIENCE)


class Program:
    """The desk with driver.c in it, which takes lines and answers when all is done and shown."""

    def __init__(self, screen, words, started):
        self.process = subprocess.Popen(words, env=screen.environment, stdin=subprocess.PIPE, stdout=subprocess.PIPE)
        started.append(self.process)
        self.said = b""

    def lines(self, *lines):
        """Lines that happen together. Gives what the desk said meanwhile."""
        self.send("".join(f"{line}\n" for line in lines))
        return self.ready()

    def send(self, text):
        try:
            os.write(self.process.stdin.fileno(), text.encode())
        except BrokenPipeError:
            raise Wrong(f"the desk ended with status {self.process.wait(PATIENCE)}")

    def ready(self):
        self.send("ready\n")
        out = self.process.stdout.fileno()
        while not self.said.endswith(b"ready\n"):
            if not select.select([out], [], [], PATIENCE)[0]:
                raise Wrong("the desk does not answer")
            got = os.read(out, 65536)
            if not got:
                raise Wrong(f"the desk ended with status {self.process.wait(PATIENCE)}")
            self.said += got
        said, self.said = self.said.decode().splitlines()[:-1], b""
        return said

    def end(self):
        self.process.stdin.close()
        status = self.process.wait(PATIENCE)
        if status != 0:
            raise Wrong(f"the desk ended with status {status}")
