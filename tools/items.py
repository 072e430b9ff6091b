"""The functions of a crate, each with what it takes, what it hands back and its contract, read from its `.rt` files."""
import dataclasses
import re

# The attributes that an item here may have.
ATTRIBUTES = ("repr", "no_mangle", "unsafe", "derive", "inline", "tactic")
# The public modules of a crate that has calls: what our own crates need, and why a call is refused.
PUBLIC = ("inner", "refusal")
WORD = re.compile(r"\s+|//[^\n]*|/\*|b?\"(?:\\.|[^\"\\])*\"|b'(?:\\.|[^'\\])'|'\w+|«\w+»|::|->|--|\w[\w·]*|.", re.S)
CLOSING = {"{": "}", "(": ")", "[": "]"}


class Unread(Exception):
    """A form that no file here has: what cannot be read is refused."""


@dataclasses.dataclass
class Module:
    crate: str
    file: str
    path: tuple = ()
    public: bool = True

    @property
    def inner(self):
        return self.path[:1] == ("inner",)


@dataclasses.dataclass
class Function:
    module: Module
    line: int
    owner: str
    name: str
    public: bool
    exported: bool
    takes: list
    gives: list
    requires: list
    ensures: list

    @property
    def full(self):
        return "::".join(filter(None, (self.module.crate, self.owner, self.name)))

    def names(self):
        """What a row may call it. A function and a method of Session need no prefix."""
        short = {self.name} if self.owner in ("", "Session") else set()
        return short | {self.full} | ({f"{self.owner}::{self.name}"} if self.owner else set())

    def types(self):
        return {word for words in [*(kind for _, kind in self.takes), self.gives] for word in words}


def words_of(text):
    """The words and signs of a file, each with its line, without comments."""
    found, at, line = [], 0, 1
    while at < len(text):
        word = WORD.match(text, at).group()
        if word == "/*":
            word = comment(text, at)
        elif not word.isspace() and not word.startswith("//"):
            found.append((word, line))
        line += word.count("\n")
        at += len(word)
    return found


def comment(text, at):
    """A comment with those in it; one that has no end goes to the file's."""
    depth = 0
    for mark in re.compile(r"/\*|\*/").finditer(text, at):
        depth += 1 if mark.group() == "/*" else -1
        if depth == 0:
            return text[at : mark.end()]
    return text[at:]


def split(words):
    """Parts between commas that stand in no bracket."""
    parts, depth = [[]], 0
    for word in words:
        depth += (word in "([{<") - (word in ")]}>")
        if word == "," and depth == 0:
            parts.append([])
        else:
            parts[-1].append(word)
    return [part for part in parts if part]


class Crate:
    """The functions of a crate, by its files from the first one on, and what is wrong with how they are written."""

    def __init__(self, name, files, has_calls):
        self.name, self.files, self.has_calls = name, files, has_calls
        self.source = f"crates/{name}/src"
        self.functions, self.wrong, self.ghosts = [], [], {}
        first = next((f for f in ("lib.rt", "main.rt") if f"{self.source}/{f}" in files), "lib.rt")
        self.waiting, self.read = [Module(name, f"{self.source}/{first}")], set()
        while self.waiting:
            self.file(self.waiting.pop())
        for file in sorted(files):
            if file.startswith(self.source + "/") and file not in self.read:
                self.wrong.append(f"{file}: no `mod` names this file")

    def file(self, module):
        self.read.add(module.file)
        if module.file not in self.files:
            self.wrong.append(f"{module.file}: a `mod` names this file, and there is none")
            return
        reader = Reader(self, self.files[module.file])
        try:
            while reader.peek():
                reader.item(module, "")
        except Unread as why:
            self.wrong.append(f"{module.file}:{reader.line()}: {why}")

    def refuse(self, module, line, text):
        """Of a crate that has calls: in the others no function is a call that is not exported."""
        if self.has_calls:
            self.wrong.append(f"{module.file}:{line}: {text}")


class Reader:
    """Reads the items of one file."""

    def __init__(self, crate, text):
        self.crate, self.words, self.at = crate, words_of(text), 0

    def peek(self, ahead=0):
        return self.words[self.at + ahead][0] if self.at + ahead < len(self.words) else ""

    def line(self):
        return self.words[min(self.at, len(self.words) - 1)][1]

    def take(self, expected=""):
        word = self.peek()
        if not word or expected not in ("", word):
            raise Unread(f"'{word}' stands where '{expected or 'a word'}' has to")
        self.at += 1
        return word

    def group(self):
        """What stands in a bracket, without the antt comments `-- …`."""
        if self.peek() not in CLOSING:
            raise Unread(f"'{self.peek()}' stands where a bracket has to")
        stack, start = [CLOSING[self.take()]], self.at
        while stack:
            word = self.take()
            if word in CLOSING:
                stack.append(CLOSING[word])
            elif word == stack[-1]:
                stack.pop()
            elif word in CLOSING.values():
                raise Unread(f"'{word}' closes nothing")
        words = self.words[start : self.at - 1]
        commented = {line: i for i, (word, line) in reversed(list(enumerate(words))) if word == "--"}
        return [word for i, (word, line) in enumerate(words) if i < commented.get(line, len(words))]

    def until(self, *ends):
        """What stands before one of the ends, which is left."""
        start = self.at
        while self.peek() not in ends:
            self.group() if self.peek() in CLOSING else self.take()
        return [word for word, _ in self.words[start : self.at]]

    def item(self, module, owner):
        exported = self.attributes()
        if not self.peek():
            return
        public, line = self.visibility(), self.line()
        while self.peek() in ("const", "extern") and self.peek(1) in ("fn", "extern", '"C"'):
            exported |= self.take() == "extern"
            if self.peek() == '"C"':
                self.take()
        word = self.take()
        if word == "fn":
            self.function(module, owner, public, exported, line)
        elif word == "mod":
            self.submodule(module, public, line)
        elif word == "impl":
            self.methods(module)
        elif word == "use":
            self.used(module, public, line)
        elif word == "ghost" and self.peek() == "use":
            self.crate.ghosts.setdefault(module.file, []).append(self.until(";"))
            self.take(";")
        elif word in ("ghost", "type"):
            if word == "type" and not owner:
                self.crate.refuse(module, line, "a type by another name would hide whose methods they are")
            self.until(";")
            self.take(";")
        elif word == "trait":
            self.until("{")
            self.block(module, "")
        elif word in ("struct", "enum", "const"):
            if self.until("{", ";") and self.peek() == "{":
                self.group()
            if self.peek() == ";":
                self.take()
        else:
            raise Unread(f"an item that begins with '{word}'")

    def attributes(self):
        exported = False
        while self.peek() == "#":
            self.take()
            if self.peek() == "!":
                self.take()
            words = self.group()
            if words[0] not in ATTRIBUTES:
                raise Unread(f"the attribute '{words[0]}'")
            exported |= "no_mangle" in words[:3]
        return exported

    def visibility(self):
        """`pub(crate)` is not public."""
        if self.peek() != "pub":
            return False
        self.take()
        if self.peek() != "(":
            return True
        self.group()
        return False

    def submodule(self, module, public, line):
        name = self.take()
        below = Module(module.crate, module.file, module.path + (name,), module.public and public)
        if below.public and below.path[0] not in PUBLIC:
            self.crate.refuse(module, line, f"pub mod {name}: a crate that has calls has no public module but {PUBLIC}")
        if self.peek() == "{":
            self.block(below, "")
            return
        self.take(";")
        self.crate.waiting.append(dataclasses.replace(below, file=f"{self.crate.source}/{'/'.join(below.path)}.rt"))

    def block(self, module, owner):
        self.take("{")
        while self.peek() != "}":
            self.item(module, owner)
        self.take("}")

    def methods(self, module):
        if self.peek() == "<":
            self.until(">")
            self.take(">")
        line, start = self.line(), self.at
        heads = [word for word in self.until("{") if word != "::"]
        name = [word for word in heads[heads.index("for") + 1 if "for" in heads else 0 :] if word != "<"][0]
        self.block(module, name)
        told = any(word == "ghost" for word, _ in self.words[start : self.at])
        if heads[0] in ("From", "TryFrom") and not told:
            self.crate.refuse(module, line, f"an impl of {heads[0]} that says nothing of what it gives")

    def used(self, module, public, line):
        words = self.until(";")
        self.take(";")
        if public:
            self.crate.refuse(module, line, "pub use: what is handed on may be a function that only our own crates need")
        if "as" in words:
            self.crate.refuse(module, line, "use … as …: an impl of another name would hide whose methods they are")

    def function(self, module, owner, public, exported, line):
        name = self.take()
        self.until("(")
        takes = [parameter(words) for words in split(self.group())]
        gives = self.until("requires", "ensures", "{") if self.peek() == "->" else []
        clauses = {"requires": [], "ensures": []}
        while self.peek() in clauses:
            kind = self.take()
            # One of several of a kind has a name.
            if self.peek() != "{":
                self.take()
            clauses[kind].append(self.group())
        if self.peek() == ";":  # of a trait
            self.take()
            return
        if {"fn", "impl", "mod", "use"}.intersection(self.group()):
            raise Unread(f"an item in the body of {name}")
        self.crate.functions.append(Function(module, line, owner, name, public, exported, takes, gives, **clauses))


def parameter(words):
    """Its name and the words of its type; `self` has its own."""
    if ":" not in words:
        return "self", words
    at = words.index(":")
    return words[at - 1], words[at + 1 :]
