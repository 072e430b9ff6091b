"""calls.py [--test]: sees that every public call has a contract whose only premise is Given, and a row in docs/PROMISES.md.

A public call is an exported function, or a public function or method of a crate that has calls, outside its module
`inner`; a public method of a type that a call takes or hands back is one wherever it stands. A line says what is wrong,
and the status is then 1. With --test it also makes edits that it has to refuse (calls_test.py).
"""
import functools
import pathlib
import re
import sys

from items import Crate

ROOT = pathlib.Path(__file__).resolve().parent.parent
PROMISES = "docs/PROMISES.md"
# The crates that have calls, and those that only our own crates use.
CALLS = "geom busiest sheet winbuf stride windows roqshyn".split()
OWN = "answer_text bands bare_lines display due first_program look order paint replay rules scanline script topmost visible window".split()
# Where the one premise of a call is defined.
GIVEN = "Rattle.windows.specs.View"
# Words of a clause that mean what the language says.
OWN_WORDS = ("result", "old", "new", "now")


def is_call(function):
    """Exported, or public outside `inner`: a method wherever its impl stands, a function where a caller can name it."""
    module = function.module
    if function.exported:
        return True
    return module.crate in CALLS and function.public and not module.inner and bool(function.owner or module.public)


def public_calls(crates):
    """And the public methods in `inner` of what these calls take or hand back."""
    functions = [function for read in crates for function in read.functions]
    calls = [function for function in functions if is_call(function)]
    types = {"Session"}.union(*(call.types() for call in calls))
    methods = [f for f in functions if f.module.crate in CALLS and f.public and f.module.inner and f.owner in types]
    return calls + methods


def wrong_contract(call, ghosts):
    """What is wrong with a call's premises and promises."""
    session = next((name for name, kind in call.takes if "Session" in kind or (name, call.owner) == ("self", "Session")), "")
    lent = next((["old" if "mut" in kind else "now"] for name, kind in call.takes if name == session and "&" in kind), [])
    premise = ["Given", session, *(word for part in lent for word in (".", part))]
    for words in call.requires:
        if not session:
            yield f"requires {{ {' '.join(words)} }}, and it has no session: it may ask for nothing"
        elif words != premise:
            yield f"requires {{ {' '.join(words)} }}, and not {' '.join(premise)} alone"
    if call.requires and session:
        yield from wrong_given(ghosts)
    if not call.ensures:
        yield "has no ensures"
    said = [word.strip("«»") for words in call.ensures for word in words]
    if call.ensures and call.gives and "result" not in said:
        yield "its ensures does not name what it hands back"
    for name, kind in call.takes:
        if "&" in kind and "mut" in kind and not any(said[i : i + 3] == [name, ".", "new"] for i in range(len(said))):
            yield f"its ensures does not say what {name} holds afterwards"


def wrong_given(ghosts):
    """Whether `Given` is the one of windows/specs/View.antt, and `result`, `old`, `new` and `now` the language's own."""
    sources = []
    for words in ghosts:
        path = "".join(words[1:]).partition("{")[0].rstrip(".")
        if "Given" in words:
            sources.append(path if "as" not in words else "")
        for word in set(OWN_WORDS).intersection(words):
            yield f"`{word}` is brought in under another meaning"
    if sources != [GIVEN]:
        yield f"`Given` is not the one of {GIVEN}"


def tables(text, head="call"):
    """The rows of the tables whose first column is headed so, each with its line and the heads of its table."""
    heads = None
    for number, line in enumerate(text.splitlines(), 1):
        cells = [cell.strip() for cell in line.strip().strip("|").split("|")]
        if not line.startswith("|"):
            heads = None
        elif heads is None:
            heads = cells
        elif heads[0] == head and not set(line) <= set("|-"):
            yield number, heads, cells


def named(cell):
    """The names of a cell: `Rect::contains`, `within` are both of Rect."""
    names, prefix = [], ""
    for span in re.findall(r"`([^`]+)`", cell):
        name = span.partition("(")[0].strip()
        names.append(prefix + name if "::" not in name else name)
        prefix = names[-1].rpartition("::")[0] + "::" if "::" in names[-1] else ""
    return names


def wrong_rows(calls, text):
    """Rows that name no call, or one that another row names, and calls that no row names."""
    seen, names = {}, {name for call in calls if not call.exported for name in call.names()}
    for number, heads, cells in tables(text):
        for name in named(cells[0]):
            found = [call for call in calls if name in call.names()]
            if len(found) != 1:
                yield f"{PROMISES}:{number}: `{name}` is {'the name of two public calls' if found else 'no public call'}"
            elif found[0].full in seen:
                yield f"{PROMISES}:{number}: `{name}` stands in line {seen[found[0].full]} already"
            else:
                seen[found[0].full] = number
            if heads[1] == "the same as":
                yield from wrong_twin(number, name, cells[1], names)
    for call in calls:
        if call.full not in seen:
            yield f"{call.module.file}:{call.line}: {call.full} stands in no table of {PROMISES}"


def wrong_twin(number, name, cell, names):
    """An exported call is the same as the calls that its row names, or as the one whose name follows `roq_`."""
    for twin in named(cell) or [name.removeprefix("roq_")]:
        if twin not in names and f"Rect::{twin}" not in names:
            yield f"{PROMISES}:{number}: `{name}` is the same as `{twin}`, which is no public call"


@functools.cache
def crate(name, files):
    """Read once for the same files: the test edits one crate at a time."""
    return Crate(name, dict(files), name in CALLS)


def check(files):
    """How many public calls there are, and what is wrong."""
    listed = re.findall(r"^(\w+)(?: staticlib)?:", files["crates.txt"], re.M)
    unknown = [name for name in listed if name not in CALLS + OWN]
    wrong = [f"crates.txt: crate {name} is in neither list of tools/calls.py: has it calls?" for name in unknown]
    crates = [crate(name, tuple(pair for pair in files.items() if pair[0].startswith(f"crates/{name}/"))) for name in listed]
    wrong += [text for read in crates for text in read.wrong]
    calls = public_calls(crates)
    ghosts = {file: words for read in crates for file, words in read.ghosts.items()}
    for call in calls:
        for text in wrong_contract(call, ghosts.get(call.module.file, [])):
            wrong.append(f"{call.module.file}:{call.line}: {call.full}: {text}")
    return len(calls), wrong + list(wrong_rows(calls, files[PROMISES]))


def read_files():
    paths = [ROOT / "crates.txt", ROOT / PROMISES, *ROOT.glob("crates/*/src/**/*.rt")]
    return {str(path.relative_to(ROOT)): path.read_text() for path in paths}


def main(words):
    files = read_files()
    count, wrong = check(files)
    if wrong:
        print("\n".join(wrong))
        sys.exit(1)
    if words == ["--test"]:
        from calls_test import refused

        print(f"{refused(files)} edits refused")
    print(f"{count} public calls, each with a contract whose only premise is Given, and each in {PROMISES}")


if __name__ == "__main__":
    main(sys.argv[1:])
