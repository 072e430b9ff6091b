"""What ./play says, of scripts and at a keyboard, with a stand-in for `replay`."""
import importlib.util
import os
import pty
import select
import subprocess

from call_script import PAGE, questions, rows
from commands_test import expect


def play(room, what, text, status, *parts):
    """A script ends with this status, and all these parts are said."""
    said = room.run("play", "-", given=text)
    expect(what, said.returncode == status and all(part in said.stdout + said.stderr for part in parts), said)


def scripts(room):
    play(room, "a good script", "start 9\n", 0, "0 of 1 lines were malformed\n")
    play(room, "a refused call", "show 3\n", 0, "3  answered with a no: the id is below 16 and in use\n")
    numbers = range(2, 30, 2)
    text = "".join(f"start {n}\nbad\n" for n in range(14))
    play(room, "many malformed lines", text, 1, f"14 of 28 lines were malformed: {', '.join(map(str, numbers))}\n")
    play(room, "malformed lines in a row", "bad\n" * 3, 1, "3 of 3 lines were malformed: 1 to 3\n")
    (room.away / "folder").mkdir()
    unwritten = "line 1: the picture folder cannot be written"
    play(room, "an unwritten picture", "picture 2 2 folder\n", 1, "!  it cannot", unwritten)
    play(room, "too large a picture", "picture 8000 800 folder\n", 0, "!  beyond the program's own limits")
    return 6


def pictures(room):
    """Three pictures whose PNG would have one name, or the name of another picture."""
    play(room, "pictures", "picture 1 1 x.png\npicture 2 1 x\npicture 3 1 x.ppm\n", 0, "x-2.png", "x-3.png")
    for name, width in ("x.png", 1), ("x", 2), ("x.ppm", 3):
        text = (room.away / name).read_bytes()
        expect(f"the picture {name} is overwritten", text.startswith(b"P6\n%d 1\n" % width), text[:20])
    return 4


def keyboard(room):
    """Help, an unknown word of it, and a call that the arrow key brings back."""
    ours, theirs = pty.openpty()
    words = ["bash", room.root / "play", "-"]
    environment = room.environment(TERM="xterm")
    program = subprocess.Popen(words, cwd=room.away, env=environment, stdin=theirs, stdout=theirs, stderr=theirs)
    os.close(theirs)
    said = b""
    for typed in b"help\r", b"help show\r", b"help nothing\r", b"show 3\r", b"\x1b[A\r", b"\x04":
        said += heard(ours, b"> ")
        os.write(ours, typed)
    said += heard(ours, None)
    os.close(ours)
    text = said.decode().replace("\r", "")
    expect("the keyboard's status", program.wait(timeout=10) == 0, text)
    expect("help", "keydown V" in text and "read-sheet BYTE…" in text, text)
    expect("help show", "called: show, hide" in text and "there is no line nothing" in text, text)
    if importlib.util.find_spec("readline"):
        expect("the arrow key", text.count("answered with a no") == 2 and "0 of 2 lines" in text, text)
    return 4


def heard(terminal, end):
    """What is written until it ends so, or until the program ends; at most what comes without 10 seconds of silence."""
    said = b""
    while (end is None or not said.endswith(end)) and select.select([terminal], [], [], 10)[0]:
        try:
            said += os.read(terminal, 4096)
        except OSError:  # the program has ended
            break
    return said


def played(room):
    page = PAGE.read_text()
    expect("the questions", list(questions(page)) == [str(n) for n in range(1, 29)], questions(page))
    expect("the lines", all(len(row) in (2, 3) and row[0] for row in rows(page)), rows(page))
    return 2 + scripts(room) + pictures(room) + keyboard(room)
