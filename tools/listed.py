"""Lists that have to be complete: crates, commands, scripts, words of scripts, questions, exported calls, documents.

Also the places that have the version.
"""
import re

import prose
from calls import tables
from figures import number_of

HEADER, ERRORS, ANSWERS = "include/roqshyn.h", "bindings/rust/src/error.rs", "crates/geom/src/refusal.rt"
SCRIPT, NOTICE, MANUAL = "docs/CALL-SCRIPT.md", "NOTICE", "docs/SAFETY-MANUAL.md"
DIFFERENCES = "docs/DIFFERENCES.md"
LOCKED, FOUND = r'^name = "roqshyn"\nversion = "(.*)"$', r"find_package\(roqshyn (\S+) REQUIRED\)"
# Where the version stands beside the header, and where its first two numbers do.
VERSIONS = (
    ("bindings/rust/Cargo.toml", r'^version = "(.*)"$'),
    *((f"{folder}/Cargo.lock", LOCKED) for folder in ("bindings/rust", "examples/rust", "bench")),
    ("crates/roqshyn/src/version.rt", r"^const (?:MAJOR|MINOR|PATCH): u32 = (\d+);$"),
    ("crates/roqshyn/specs/Version.antt", r"^version = version_of (\d+ \d+ \d+)$"),
    ("README.md", r"^Version (\S+), "),
    ("docs/VERSIONS.md", r"It is now \*\*(\S+)\*\*\."),
)
MINORS = tuple((path, FOUND) for path in ("docs/LINKING.md", "examples/cpp/CMakeLists.txt"))
# Where a reader looks for commands and for scripts.
COMMANDS = ("README.md", "docs/COMMANDS.md", "compare/README.md", "examples/README.md")
# Rectangles of CALL-SCRIPT.md, A and perhaps B, are four numbers each.
RECTANGLES = ("A", "B")


def differ(where, what, said, true):
    """Names that only one of the two has."""
    yield from [f"{where}: it has no {what} {name}" for name in sorted(set(true) - set(said))]
    yield from [f"{where}: {name} is no {what}" for name in sorted(set(said) - set(true))]


def crates(tree):
    """Tables headed `crate`, and the crates of NOTICE, which are those that a table has from a file of the original."""
    ported = set()
    for path, text in sorted(tree.files.items()):
        rows = list(tables(text, "crate")) if path.endswith(".md") else []
        names = [re.search(r"\[`(\w+)`\]", cells[0]) for _, _, cells in rows]
        names = [name[1] for name in names if name]
        if names:
            yield from differ(path, "crate", names, tree.crates)
            ported |= {name for name, (_, _, cells) in zip(names, rows) if ".rs`" in cells[-1]}
    said = re.findall(r"^  crates/(\w+)/src/ +from", tree.files[NOTICE], re.M)
    yield from differ(NOTICE, "crate of the original's", said, ported)


def original(tree):
    """The original's files in NOTICE are those that are compared."""
    true = re.findall(r'\("(Kernel/[^"]+)"', tree.files["compare/original/build.rs"])
    yield from differ(NOTICE, "file of the original", re.findall(r"Kernel/\S+?\.rs", tree.files[NOTICE]), true)


def commands(tree):
    """Every command and every script of examples/ is named where a reader looks for it."""
    said = "\n".join(tree.files.get(path, "") for path in COMMANDS)
    for command in sorted(path for path in tree.commands - {"play", "play-station"} if not path.endswith(".py")):
        if f"`bash {command}" not in said:
            yield f"{command}: no `bash {command}` stands in {' or '.join(p for p in COMMANDS if p in tree.files)}"
    for path in sorted(tree.files):
        name = path.removeprefix("examples/")
        if re.fullmatch(r"\w[\w-]*\.calls", name) and name != path and path not in said and f"({name})" not in said:
            yield f"{path}: no document among {', '.join(p for p in COMMANDS if p in tree.files)} names it"


def differences(tree):
    """Every script that shows a difference is named where that is described."""
    for path in sorted(tree.files):
        name = path.removeprefix("compare/differences/")
        if name != path and name.endswith(".calls") and f"`{name}`" not in tree.files[DIFFERENCES]:
            yield f"{path}: {DIFFERENCES} does not name it"


def script_words(tree):
    """The tables of CALL-SCRIPT.md headed `line` have every word, with as many numbers as the table of the code."""
    said = {}
    for number, _, cells in tables(tree.files[SCRIPT], "line"):
        for line in re.findall(r"`([^`]+)`", cells[0]):
            word, *rest = line.split()
            said[word] = number
            numbers = [part for part in rest if not part.endswith("…") and part != "NAME"]
            count = len(numbers) + 3 * sum(part in RECTANGLES for part in numbers if numbers[0] == "A")
            known = tree.script.get(word)
            if known and known != (count, any(part.endswith("…") for part in rest)):
                yield f"{SCRIPT}:{number}: `{line}` has {count} numbers; the code's table has {known[0]}"
    yield from differ(SCRIPT, "line", said, tree.script)


def header_questions(text):
    table = text.partition("in their order:")[2].partition("Sessions.")[0]
    return {int(number): words for number, words in re.findall(r"^ \* +(\d+)  (.*)$", table, re.M)}


def questions(tree):
    """The questions are the same in header, CALL-SCRIPT.md, bindings and code."""
    header = header_questions(tree.files[HEADER])
    page = re.findall(r"^\| (\d+) \| (.*) \|$", tree.files[SCRIPT].replace("×", "x"), re.M)
    errors = re.findall(r'^    (\d+) \w+ "(.*)"$', tree.files[ERRORS], re.M)
    for path, said in ((SCRIPT, page), (ERRORS, errors)):
        said = {int(number): words for number, words in said}
        yield from differ(path, "question", said, header)
        for number in sorted(set(said) & set(header)):
            if said[number] != header[number]:
                yield f"{path}: question {number} has other words than in {HEADER}"
    answers = re.findall(r"^    (\w+) = (\d+),$", tree.files[ANSWERS], re.M)
    yield from differ(HEADER, "question", header, {int(number) for _, number in answers})
    named = re.findall(r"^    ROQ_ERROR_(\w+) = (\d+),?$", tree.files[HEADER], re.M)
    said = [f"{name.title().replace('_', '')} = {number}" for name, number in named]
    yield from differ(HEADER, "answer", said, [f"{name} = {number}" for name, number in answers])


def exported(tree):
    """The header declares what the crate exports."""
    code = "\n".join(text for path, text in tree.files.items() if path.startswith("crates/roqshyn/src/"))
    declared = re.findall(r"^\w+ \*?(roq_\w+)\(", tree.files[HEADER], re.M)
    yield from differ(HEADER, "exported call", declared, re.findall(r'pub extern "C" fn (roq_\w+)', code))


def version(tree):
    """Every place that has the version has the header's."""
    true = re.findall(r"^#define ROQ_VERSION_(?:MAJOR|MINOR|PATCH) (\d+)$", tree.files[HEADER], re.M)
    for places, numbers in ((VERSIONS, true), (MINORS, true[:2])):
        for path, words in places:
            said = ".".join(re.findall(words, tree.files[path], re.M)).replace(" ", ".")
            if said != ".".join(numbers):
                yield f"{path}: version {said or 'none'}, and {HEADER} has {'.'.join(numbers)}"


def tested(tree):
    """The safety manual names the commands of tools/ that try with --test what they refuse."""
    row = re.search(r"^\| commands of this repository .*$", tree.files[MANUAL], re.M)
    said = re.findall(r"`(\w+)`", row[0].partition("`tools/`")[0]) if row else []
    known = [c for c in tree.commands if c.startswith("tools/") and "--test" in tree.files[c]]
    yield from differ(MANUAL, "command with --test", said, [command.removeprefix("tools/") for command in known])


def doors(tree):
    """Links lead from README.md to every document."""
    found = ["README.md"]
    for path in found:
        for target, _ in prose.links(tree.files[path]):
            page = prose.target(path, target.partition("#")[0])
            page = page if page in tree.files else f"{page}/README.md"
            if page.endswith(".md") and page in tree.files and page not in found:
                found.append(page)
    for path in sorted(tree.files):
        if path.endswith(".md") and path not in found:
            yield f"{path}: no links lead to it from README.md"


def announced(tree):
    """`Eight more commands:` has so many points behind it."""
    for path, text in tree.files.items():
        said = re.finditer(r"\b(\w+) more commands:\n\n((?:- .*\n(?:  .*\n)*)+)", text)
        for found in said if path.endswith(".md") else ():
            count = len(re.findall(r"^- ", found[2], re.M))
            if number_of(found[1]) != count:
                yield f"{path}:{prose.line_at(text, found.start())}: {found[1]} more commands, and {count} follow"


def in_gate(tree):
    """What documents say that the gate runs is run there."""
    for path, text in tree.files.items():
        said = re.finditer(r"`bash ([\w/.]+)`,\s+which\s+the\s+gate\s+runs", text)
        for found in said if path.endswith(".md") else ():
            if found[1] not in tree.files[".ci/run"]:
                yield f"{path}:{prose.line_at(text, found.start())}: .ci/run does not run {found[1]}"


def wrong_lists(tree):
    pages = crates, original, commands, differences, tested, doors, announced, in_gate
    for part in (*pages, script_words, questions, exported, version):
        yield from part(tree)
