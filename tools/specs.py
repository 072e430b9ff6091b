"""The definitions of a spec file, each with the words of its type and its body, read from its `.antt` file."""
import dataclasses
import re

from items import Unread

WORD = re.compile(r'--(?=[ -]|$)[^\n]*|"(?:\\.|[^"\\])*"|[(){};,]|(?:(?![(){};,"])\S)+', re.M)
MODIFIERS = ("pub", "abbrev", "unfoldable")
# Lines that define nothing. `unfolding` says what a proof opens.
PASSED = ("infix", "unfolding", "mod")


@dataclasses.dataclass
class Definition:
    name: str
    words: set
    # Whether it is a statement: a type without arguments.
    closed: bool


@dataclasses.dataclass
class Scope:
    """What `use` lines bring in: names as (module, name), and the names that are given to modules."""

    names: dict = dataclasses.field(default_factory=dict)
    modules: dict = dataclasses.field(default_factory=dict)

    def use(self, words):
        """MODULE.{names} or MODULE as NAME; each of the names may have its `as`."""
        text = "".join(f" {word} " if word == "as" else word for word in words)
        module, brace, inside = text.partition("{")
        if not brace:
            module, _, name = text.partition(" as ")
            self.modules[name or module.rpartition(".")[2]] = module
            return
        module = module.rstrip(".")
        for part in filter(None, inside.removesuffix("}").split(",")):
            name, _, here = part.partition(" as ")
            self.names[here or name] = (module, name)


def words_in(text):
    """The words and brackets of a text without its comments. `λ r.` has the word `r.`, which is cut to `r`."""
    return [word.rstrip(".") or word for word in WORD.findall(text) if not word.startswith("--")]


def pieces(name):
    """How a name is written where it is cited: `◌is◌` is `is`."""
    return [piece for piece in name.split("◌") if piece]


class Spec:
    """One file: what it brings in, its definitions by name, and of which one each constructor is."""

    def __init__(self, text):
        self.scope, self.definitions, self.makers, self.last = Scope(), {}, {}, None
        for item in re.split(r"\n(?=[^\s})-])", re.sub(r"^\s*--.*\n", "", text, flags=re.M)):
            words = words_in(item)
            if words[:1] == ["use"]:
                self.scope.use(words[1:])
            elif words:
                self.item(item, words)

    def item(self, item, words):
        """A line that begins at the left, with those that go on with it."""
        while words[0] in MODIFIERS:
            words = words[1:]
        if words[0] in PASSED:
            return
        if words[0] in ("record", "data"):
            self.define(words[1], words, words[2:5] == [":", "Type", "0"] and words[0] == "record")
            if words[0] == "data":
                for names in re.findall(r"\n  (\S[^:\n]*) :", item):
                    self.makers.update({name: words[1] for name in names.split()})
        elif ":" in words and (words[1] == ":" or words[1] == "{" and "=" not in words[: words.index(":")]):
            self.define(words[0], words, words[1:] == [":", "Type", "0"])
        elif words[0] != "use" and self.last and set(pieces(self.last)).intersection(words):
            self.definitions[self.last].words.update(words)
        else:
            raise Unread(f"what begins with '{words[0]}' is no definition, and no part of {self.last}")

    def define(self, name, words, closed):
        if name in self.definitions:
            raise Unread(f"{name} is defined twice")
        self.last, self.definitions[name] = name, Definition(name, set(words), closed)
