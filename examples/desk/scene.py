"""scene.py DESK FOLDER mouse|finger: plays one scene on the program DESK, under Xvfb, by xdotool's mouse or by a finger
of driver.c. After each step every pixel of the window is compared with the picture that picture.py paints. It ends with
the count of the shots, or with the first that is not as painted; that is written to FOLDER as PNG, unless that is -."""
import os
import signal
import sys
import tempfile

from hands import Finger, Mouse
from play_more import More
from screen import Program, Screen, Wrong


class Scene(More):
    def play(self):
        self.shot("open")
        self.play_panels()
        self.play_slides()
        self.play_stop()
        self.play_palm()
        self.play_disturbed()
        self.play_lost()
        self.play_left()
        self.play_focus()
        self.play_fingers()
        self.play_one_panel()
        self.play_crowd()
        self.play_size()
        self.play_time()
        self.play_burst()
        self.play_lens()
        self.play_dimming()
        self.play_maximised()
        self.play_portions()
        self.play_sheet()
        self.play_displays()
        self.play_beside()
        self.play_again()


def main(program, folder, by):
    signal.signal(signal.SIGTERM, lambda *_: sys.exit(1))
    if folder != "-":
        os.makedirs(folder, exist_ok=True)
    with tempfile.TemporaryDirectory() as room:
        started = []
        try:
            screen = Screen(room, started)
            screen.xdotool("mousemove 5 5")  # beside the desk
            words = [os.path.abspath(program), "--files", room]
            hand = {"mouse": Mouse, "finger": Finger}[by]
            scene = Scene(screen, lambda: Program(screen, words, started), folder, hand)
            scene.play()
            scene.program.end()
            print(f"{scene.shots} shots, every pixel as painted")
        except Wrong as wrong:
            print(wrong)
            sys.exit(1)
        finally:
            for one in reversed(started):
                one.kill()
                one.wait()


main(*sys.argv[1:])
