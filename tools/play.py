"""play.py REPLAY SCRIPT: plays a call script on the program REPLAY, line by line, and prints each call beside its
answer, with the question if it was refused; SCRIPT `-` is the standard input. Then it says which pictures were written,
also as PNG, and which were not, and which lines were malformed; its status is 1 if a line was malformed or a picture is
missing."""
import itertools
import os
import signal
import subprocess
import sys

from call_script import PAGE, help_on, questions
from pictures import convert_all

WIDE = 44
# The pixels of the program's screen.
SCREEN = 3_072_000


def beside(call, answer):
    """A call that is too long to stand beside its answer is cut; the answer never is."""
    return f"{call if len(call) <= WIDE else call[: WIDE - 1] + '…':{WIDE}} {answer}"


def listed(numbers):
    """All of them; three or more in a row as `3 to 9`."""
    runs = itertools.groupby(enumerate(numbers), lambda pair: pair[1] - pair[0])
    rows = [[number for _, number in run] for _, run in runs]
    return ", ".join(f"{row[0]} to {row[-1]}" if len(row) > 2 else ", ".join(map(str, row)) for row in rows)


def say(text):
    print(text, file=sys.stderr)


class Player:
    def __init__(self, replay, typed):
        self.program = subprocess.Popen([replay], stdin=subprocess.PIPE, stdout=subprocess.PIPE)
        self.typed = typed
        self.page = PAGE.read_text()
        self.questions = questions(self.page)
        self.number = 0
        self.malformed = {}
        self.pictures = []
        self.unwritten = {}

    def line(self, line):
        """Plays one, without its newline. Where a person types, the call stands on the screen already, and help can be
        asked for."""
        words = line.decode(errors="replace").split()
        if self.typed and words[:1] == ["help"]:
            print(help_on(self.page, " ".join(words[1:])), flush=True)
            return
        self.number += 1
        self.program.stdin.write(line + b"\n")
        self.program.stdin.flush()
        text = line.decode(errors="replace")
        if not line or line.startswith(b"#"):
            if not self.typed:
                print(text)
            return
        answer = self.program.stdout.readline().decode().rstrip("\n")
        if not answer:
            sys.exit(f"replay ended at line {self.number}")
        self.note(line, words, answer)
        answer += self.meaning(answer)
        print(answer if self.typed else beside(text.rstrip("\r"), answer), flush=self.typed)

    def note(self, line, words, answer):
        if answer.startswith("?"):
            self.malformed[self.number] = line
        if words[:1] != ["picture"]:
            return
        if answer == "0":
            self.pictures.append(words[3])
        elif answer == "!" and int(words[1]) * int(words[2]) <= SCREEN:
            self.unwritten[self.number] = words[3]

    def meaning(self, answer):
        """What an answer says that is not 0, as words behind it."""
        if answer in self.questions:
            return f"  answered with a no: {self.questions[answer]}"
        if answer == "!":
            return "  it cannot be written" if self.number in self.unwritten else "  beyond the program's own limits"
        return ""

    def ended(self):
        """What is left to say, and the status."""
        whole = not self.malformed and not self.unwritten
        for said, written in convert_all(dict.fromkeys(self.pictures)):
            say(said)
            whole = whole and written
        for number, name in self.unwritten.items():
            say(f"line {number}: the picture {name} cannot be written to the current folder, {os.getcwd()}")
        lines = list(self.malformed)
        say(f"{len(lines)} of {self.number} lines were malformed{': ' if lines else ''}{listed(lines)}")
        returns = [n for n, line in self.malformed.items() if line.endswith(b"\r")]
        if returns:
            say(f"a carriage return (CRLF) ends and makes malformed: {listed(returns)}")
        indented = [n for n, line in self.malformed.items() if line.lstrip().startswith(b"#")]
        if indented:
            say(f"spaces before the # make a call of what was meant as a comment: {listed(indented)}")
        self.program.stdin.close()
        return self.program.wait() or (0 if whole else 1)


def typed_lines():
    """What a person types, with arrow keys and earlier lines, where Python has readline."""
    try:
        import readline  # input() uses it
    except ImportError:
        pass
    say("one call on a line; help lists them, Ctrl-D ends")
    sys.stdin.reconfigure(errors="surrogateescape")
    prompt = "> " if sys.stdout.isatty() else ""
    while True:
        try:
            yield input(prompt).encode(errors="surrogateescape")
        except EOFError:
            return


def read_lines(source):
    return (line.removesuffix(b"\n") for line in iter(source.readline, b""))


def main(replay, script):
    signal.signal(signal.SIGPIPE, signal.SIG_DFL)
    sys.stdout.reconfigure(errors="replace")
    source = sys.stdin.buffer if script == "-" else open(script, "rb")
    player = Player(replay, source.isatty())
    try:
        for line in typed_lines() if player.typed else read_lines(source):
            player.line(line)
    except KeyboardInterrupt:
        say("")
    sys.stdout.flush()
    sys.exit(player.ended())


main(*sys.argv[1:])
