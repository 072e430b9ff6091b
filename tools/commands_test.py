"""Commands where something is missing or wrong, in a folder that has the repository's files by links, and of its own a
target/ and the crates, where `rt` writes. In place of the tools that would prove and build there are stand-ins: `rt` notes that it was called."""
import contextlib
import os
import pathlib
import shutil
import subprocess
import sys
import tempfile

from commands import ROOT

STAND_INS = {
    "rt": 'echo "$@" >>"$RT_CALLED"',
    "cargo": "exit 1",
    "rustc": "exit 1",
    "sdl2-config": "exit 0",
    # A program that finds no display.
    "cc": 'while [ "$1" != -o ]; do shift; done; printf "#!/bin/sh\\necho none; exit 1\\n" >"$2"; chmod +x "$2"',
}


class Room:
    """The folder, and what was said in it."""

    def __init__(self, folder):
        self.root, self.bin, self.called = folder / "clone", folder / "bin", folder / "called"
        self.away = folder / "away"
        for made in (self.root, self.bin, self.away):
            made.mkdir()
        for path in ROOT.iterdir():
            if path.name not in ("target", ".git", "crates"):
                (self.root / path.name).symlink_to(path)
        shutil.copytree(ROOT / "crates", self.root / "crates", ignore=shutil.ignore_patterns("out"))
        for name, text in STAND_INS.items():
            self.program(self.bin / name, f"#!/bin/sh\n{text}\n")

    def program(self, path, text):
        path.parent.mkdir(parents=True, exist_ok=True)
        path.write_text(text)
        path.chmod(0o755)

    def environment(self, **more):
        kept = {name: value for name, value in os.environ.items() if name not in ("CC", "DESTDIR", "REPLAY")}
        return kept | {"PATH": f"{self.bin}:{os.environ['PATH']}", "RT_CALLED": str(self.called)} | more

    def run(self, *words, given="", **more):
        """Runs bash with these words, the first one a file of the repository, from another folder."""
        self.called.unlink(missing_ok=True)
        words = ["bash", self.root / words[0], *words[1:]]
        environment = self.environment(**more)
        return subprocess.run(words, cwd=self.away, env=environment, input=given, capture_output=True, text=True)


def expect(what, holds, said):
    if not holds:
        sys.exit(f"tools/commands: {what}: {said}")


def stops(room, what, part, *words, **more):
    """The command ends with one sentence, before anything is proved."""
    said = room.run(*words, **more)
    one = said.returncode == 2 and said.stderr.count("\n") == 1 and not said.stdout
    expect(what, one and part in said.stderr and not room.called.exists(), said)


def proofs(room):
    """What is said of a proof that begins, and while it goes on."""
    script = room.root / "examples/share.calls"
    said = room.run("play", script)
    expect("a proof is not announced", "from nothing this takes long" in said.stderr and room.called.exists(), said)
    said = room.run("mistakes/run", "due")
    untried = said.returncode == 1 and "due/back_not_full: NOT TRIED" in said.stdout
    expect("mistakes that were not tried are not told", untried and room.called.exists(), said)
    room.program(room.root / "crates/replay/out/replay", (ROOT / "tools/stand_in.py").read_text())
    said = room.run("play", script)
    expect("a proof is announced that is done", "takes long" not in said.stderr and not room.called.exists(), said)
    silent = ". ./tools/prove.sh; { echo a; sleep 1.2; printf 'b\\nc'; } | alive 1"
    said = subprocess.run(["bash", "-c", silent], cwd=ROOT, capture_output=True, text=True)
    expect("a silent proof gives no sign", (said.stdout, said.stderr[:13]) == ("a\nb\nc", "still proving"), said)
    return 4


def refused(room):
    """What is seen before a proof."""
    nowhere = "/dev/null/nowhere"
    stops(room, "a PREFIX that cannot be written", "nowhere/include cannot be written", "install", nowhere)
    stops(room, "a LIBDIR that cannot be written", "cannot be written", "install", "--libdir", nowhere, "here")
    stops(room, "a DESTDIR that cannot be written", "cannot be written", "install", "/usr", DESTDIR=nowhere)
    for words in ((), ("a", "b"), ("--libdir",), ("--libdir", "lib"), ("--prefix", "a"), ("--libdir=", "a"), ("",)):
        stops(room, f"install {words}", "it is called as install", "install", *words)
    stops(room, "a desk without a display", "it needs a display", "examples/desk/run")
    stops(room, "no original", "thepowersgang/rust_os, commit aabec42dbd", "compare/record", ROQSHYN_ORIGINAL=nowhere)
    return 12


def unwritable(room):
    """A clone that cannot be written to: a file stands where target/ would be made."""
    (room.root / "target").rename(room.root / "made")
    (room.root / "target").touch()
    for words in (("play", "-"), ("install", "here"), ("examples/desk/run",), ("mistakes/run",), (".ci/run",)):
        stops(room, f"{words[0]} without target/", "target cannot be written", *words)
    (room.root / "target").unlink()
    (room.root / "made").rename(room.root / "target")
    return 5


def tried():
    """Tries all of it; how many answers were as they should be."""
    from play_test import played

    with contextlib.ExitStack() as stack:
        room = Room(pathlib.Path(stack.enter_context(tempfile.TemporaryDirectory())))
        return sum(part(room) for part in (proofs, refused, unwritable, played))
