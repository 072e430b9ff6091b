"""Trees that believed.py has to refuse, and some that it must not: this one with edits, in a folder of its own."""
import pathlib
import sys
import tempfile

from believed import Belief, read_files
from calls import PROMISES

SPEC = "crates/busiest/specs/Busiest.antt"
CODE = "crates/busiest/src/lib.rt"
PROOF = "crates/busiest/proofs/laws/Runs.antt"
VIEW = "crates/windows/specs/View.antt"
OUTSIDE = "crates/busiest/specs/More.antt"
INNER = "crates/busiest/specs/inner/More.antt"
EXAMPLES = "crates/busiest/specs/Examples.antt"
LIMITS = "crates/busiest/specs/inner/Limits.antt"
PROGRAM = "crates/windows/proofs/demand/Program.antt"

USE = "use Rattle.busiest.specs.inner.More"
BESIDE = "use Rattle.busiest.specs.More"
TIES = "use Rattle.busiest.specs.Examples.{ties}"
MORE = "use Rattle.std.specs.Prelude.{ℕ}\nabbrev pub more : ℕ → ℕ\nmore n = n\n"
SIGN = "use Rattle.std.specs.Prelude.{ℕ}\ninfix 20 ◌beside◌\nabbrev pub ◌beside◌ : ℕ → ℕ → ℕ\nn beside m = m\n"
KIND = "pub data Kind : Type 0 where\n  plain other : Kind\n"
LIMIT = "limit : more 0 ≡ 0\nlimit = refl\n"
TRUTH = "unfoldable pub Truth : Type 0\nTruth = Unit {0}\n"
# A definition that a public contract reaches, with what it is to name.
BODY = "leb t u && ltb u (t + 1000)"
HEAD = "use Rattle."
# The contract of `busiest`.
ENSURES = "{ second_of result ≡ busiest times.now }"
BELIEVED = "inner/More.antt: it must be believed, and lies in inner"


def names(use, word):
    """A definition that is reached brings this in and names it."""
    return [(SPEC, HEAD, f"{use}\n{HEAD}"), (SPEC, BODY, f"{word} ({BODY})")]


def promises(use, word):
    """A public contract does."""
    return [(CODE, "ghost use ", f"{use};\nghost use "), (CODE, ENSURES, ENSURES.replace("result ≡", f"{word} result ≡"))]


def proves(use):
    """A theorem has the statement as its type."""
    return (PROOF, "", f"{use}.{{Truth}}\npub truth : Truth\ntruth = tt\n")


# What is edited: a file, what stands in it ("" is its end), and what is put there. Then what has to be printed.
REFUSED = [
    ("a file that nothing reaches", [(OUTSIDE, "", MORE)], "busiest/specs/More.antt: no public contract and no promise"),
    (
        "one that only inner names",
        [(OUTSIDE, "", MORE), (INNER, "", BESIDE + ".{more}\nabbrev pub less : ℕ\nless = more 0\n")],
        "busiest/specs/More.antt: no public contract and no promise",
    ),
    ("a definition that names inner", [(INNER, "", MORE), *names(USE + ".{more}", "more")], BELIEVED),
    ("the same by another name", [(INNER, "", MORE), *names(USE + ".{more as much}", "much")], BELIEVED),
    ("the same by its module", [(INNER, "", MORE), *names(USE + " as More", "More.more")], BELIEVED),
    ("a part of a name of inner", [(INNER, "", MORE), *names(USE + " as More", "More.more.part")], BELIEVED),
    ("a sign of inner", [(INNER, "", SIGN), *names(USE + ".{◌beside◌}", "0 beside")], BELIEVED),
    ("a constructor of inner", [(INNER, "", KIND), *names(USE + ".{other}", "other")], BELIEVED),
    ("the second of a line", [(INNER, "", KIND + MORE), *names(USE + ".{Kind, more}", "more")], BELIEVED),
    (
        "a type that names inner",
        [(INNER, "", KIND), (SPEC, HEAD, f"{USE}.{{Kind}}\n{HEAD}"), (SPEC, "in_span : ℕ", "in_span : Kind → ℕ")],
        BELIEVED,
    ),
    ("a λ over inner", [(INNER, "", KIND), *names(USE + ".{Kind}", "(λ (k : Kind). k)")], BELIEVED),
    (
        "a contract that names inner",
        [(INNER, "", MORE), *promises(f"ghost {USE}.{{more}}", "more")],
        BELIEVED + ": more, from busiest::busiest",
    ),
    ("the same by its module", [(INNER, "", MORE), *promises(f"ghost {USE} as More", "More.more")], BELIEVED),
    ("a promise in inner", [(INNER, "", TRUTH), proves(USE)], BELIEVED + ": Truth, from truth"),
    (
        "a promise that the document does not have",
        [(OUTSIDE, "", TRUTH), proves(BESIDE)],
        f"Truth is proved, and {PROMISES} does not name it",
    ),
    ("a demand that is not proved", [(PROGRAM, ": ProgramDemand3", ": Other")], "ProgramDemand3: no theorem"),
    (
        "a theorem that is none",
        [(PROMISES, "proved as `demand_1`", "proved as `demand_one`")],
        "`demand_one` proves no statement",
    ),
    ("a function that is none", [(PROMISES, "| `script::read`", "| `script::reed`")], "`script::reed` is no function"),
    ("examples that a spec names", [(SPEC, HEAD, f"{TIES}\n{HEAD}")], f"{SPEC}: it cites {EXAMPLES}"),
    ("examples that code names", promises(f"ghost {TIES}", "ties"), f"{CODE}: it cites {EXAMPLES}"),
    ("a name that is not there", [(INNER, "", MORE), *names(USE + ".{less}", "less")], f"takes less from {INNER}"),
    ("a module that is not there", names(USE + " as More", "More.more"), "there is no such file"),
    ("a form that is not known", [(SPEC, "", "theorem of mine\n")], "what begins with 'theorem'"),
    ("names handed on", [(SPEC, "", f"pub {TIES}\n")], "what begins with 'use'"),
    ("two definitions of one name", [(SPEC, "", "abbrev pub in_span : ℕ\nin_span = 0\n")], "in_span is defined twice"),
    ("Given by another name", [(VIEW, "record Given ", "record Gotten ")], "Given is not defined there any more"),
]
PASSED = [
    ("a file of inner that nothing reaches", [(INNER, "", MORE)]),
    ("one that only proofs name", [(INNER, "", MORE), (PROOF, "", f"{USE}.{{more}}\n{LIMIT}")]),
    ("one that is brought in and not used", [(INNER, "", MORE), (SPEC, HEAD, f"{USE}.{{more}}\n{HEAD}")]),
    ("a name in a comment", [(INNER, "", MORE), *names(USE + ".{more}", "-- more\n    ")]),
    (
        "one that only Given names",
        [(INNER, "", MORE), (VIEW, HEAD, f"{USE}.{{more}}\n{HEAD}"), (VIEW, "pub rep : Rep s", "pub rep : more (Rep s)")],
    ),
    ("examples of what lies in inner", [(INNER, "", MORE), (LIMITS, "", f"{USE}.{{more}}\n{LIMIT}")]),
]


class Tree:
    """The tree in a folder: files are changed for one trial and then put back."""

    def __init__(self, root, files):
        self.root, self.files = pathlib.Path(root), files
        for path, text in files.items():
            self.write(path, text)

    def write(self, path, text):
        (self.root / path).parent.mkdir(parents=True, exist_ok=True)
        (self.root / path).write_text(text)

    def tried(self, edits):
        """What is wrong with the tree after the edits."""
        for path, old, new in edits:
            text = (self.root / path).read_text() if (self.root / path).exists() else ""
            if old not in text:
                sys.exit(f"tools/believed: the test has an edit of {path}, where this is no more: {old}")
            self.write(path, text.replace(old, new, 1) if old else text + new)
        wrong = Belief(read_files(self.root)).wrong
        for path in {path for path, _, _ in edits}:
            self.write(path, self.files[path]) if path in self.files else (self.root / path).unlink()
        return wrong


def refused(files):
    """How many trees are refused; it ends where one is not, or where a harmless one is."""
    with tempfile.TemporaryDirectory() as root:
        tree = Tree(root, files)
        for what, edits, line in REFUSED:
            if not any(line in text for text in tree.tried(edits)):
                sys.exit(f"tools/believed: {what} is not refused")
        for what, edits in PASSED:
            for text in tree.tried(edits):
                sys.exit(f"tools/believed: {what} is refused: {text}")
    return len(REFUSED)
