"""The files of the repository and what they have: folders, crates, commands, words of the code, lines of scripts."""
import functools
import os
import pathlib
import re

ROOT = pathlib.Path(__file__).resolve().parent.parent
LEFT_OUT = ("target", "out", ".git", "__pycache__")
# Comments are no code. A word of antt may have any sign in it, a word of a command a hyphen.
CODE = {
    ".antt": (r"--(?=[ -]|$)[^\n]*", r"[^\s(){};,\[\]\"`']+|[\w-]+"),
    ".rt": (r"//[^\n]*|/\*.*?\*/", r"\w+"),
    ".rs": (r"//[^\n]*|/\*.*?\*/", r"\w+!?"),
    ".c": (r"//[^\n]*|/\*.*?\*/", r"\w+"),
    ".h": (r"//[^\n]*|/\*.*?\*/", r"\w+"),
    ".sh": (r"(?<!\S)#[^\n]*", r"[\w-]+"),
    ".py": (r"(?<!\S)#[^\n]*", r"[\w-]+"),
    "": (r"(?<!\S)#[^\n]*", r"[\w-]+"),
}
# Here names stand that are tried, and names of the documents themselves; but play.py is what `./play` runs,
# and a station is linked with the recorder.
NO_CODE = ("tools/", "docs/", "mistakes/", "NOTICE", "LICENSE", "crates/replay/std")
RECORDER = "tools/record/"
CODE_TOO = {"tools/play.py": ".py", "examples/cpp/CMakeLists.txt": ".sh"}


def read_files(root=ROOT):
    """Every file by its path; of one that is no text only the path."""
    found = {}
    for folder, below, names in os.walk(root):
        below[:] = [name for name in below if name not in LEFT_OUT]
        for name in names:
            path = pathlib.Path(folder, name)
            found[path.relative_to(root).as_posix()] = text_of(path)
    return found


def text_of(path):
    try:
        return path.read_text()
    except UnicodeDecodeError:
        return ""


@functools.cache
def above(path):
    """The folders that a file is in, the root as a dot."""
    return [str(folder) for folder in pathlib.PurePath(path).parents]


@functools.cache
def code_words(text, suffix):
    """The words of a file, each also without the dots at its ends: `lib.Seq.` is brought in by `use`."""
    comment, word = CODE[suffix]
    words = set(re.findall(word, re.sub(comment, " ", text, flags=re.M | re.S)))
    return frozenset(words | {word.strip(".:") for word in words})


class Tree:
    def __init__(self, files):
        self.files = files
        self.folders = {folder for path in files for folder in above(path)}
        self.crates = re.findall(r"^(\w+)(?: staticlib)?:", files["crates.txt"], re.M)
        self.commands = {path for path, text in files.items() if text.startswith("#!/")}
        self.script = self.script_lines()

    @functools.cached_property
    def words(self):
        """Those of all code."""
        found = set()
        for path, text in self.files.items():
            no_code = path.startswith(NO_CODE) and not path.startswith(RECORDER)
            suffix = "no" if no_code else pathlib.PurePath(path).suffix
            suffix = CODE_TOO.get(path, suffix)
            if suffix in CODE:
                found |= code_words(text, suffix)
        return found

    @functools.cached_property
    def by_name(self):
        """Files and folders by the last part of their path, with its suffix and without."""
        found = {}
        for path in [*self.files, *self.folders]:
            pure = pathlib.PurePath(path)
            for name in {pure.name, pure.stem}:
                found.setdefault(name, []).append(path)
        return found

    def words_of(self, path):
        suffix = pathlib.PurePath(path).suffix
        return code_words(self.files[path], suffix if suffix in CODE else "")

    def script_lines(self):
        """How many numbers a line of a call script has, and whether more may follow, by its first word."""
        rows = re.findall(r'^ *\(b"([a-z-]+)", Kind::\w+, (\d+), (\w+)\),$', self.files["crates/script/src/table.rt"], re.M)
        return {word: (int(count), more != "0") for word, count, more in rows}
