"""Edits that documents.py has to refuse, and some that it must not, each made on a copy of the files in memory."""
import sys

import prose
from documents import Documents
from figures import FIGURES, stated, wrong_figures

PAGE, HEADER, SCRIPT = "docs/COMMANDS.md", "include/roqshyn.h", "docs/CALL-SCRIPT.md"
NOTICE, CRATES, VERSION = "NOTICE", "crates.txt", "crates/roqshyn/src/version.rt"
FIRST = "  crates/geom/src/      from"

# A sentence that is put at the end of a page, and a part of what has to be said of it.
SENTENCES = [
    ("a path", "It is in `crates/geom/src/gone.rt`.", "there is no crates/geom/src/gone.rt"),
    ("a path from its crate on", "It is in `geom/specs/Gone`.", "there is no geom/specs/Gone"),
    ("a path of another crate", "In `geom` it is `src/inner/one.rt`.", "no src/inner/one.rt in crates/geom/"),
    ("a path with a stand-in", "It is in `proofs/NAME/Gone.antt`.", "there is no proofs/NAME/Gone.antt"),
    ("a file alone", "It is in `gone.rt`.", "there is no gone.rt"),
    ("a file of the original", "The Rust has `windows/gone.rs:12`.", "there is no windows/gone.rs"),
    ("a file that is not installed", "It is `PREFIX/lib/libgone.a`.", "install puts no PREFIX/lib/libgone.a"),
    ("a command", "Run `bash tools/gone`.", "there is no command tools/gone"),
    ("a command with a variable", "Run `ROQSHYN_ARCHIVE=a bash bench/gone`.", "there is no command bench/gone"),
    ("a file that is no command", "Run `bash tools/calls.py`.", "there is no command tools/calls.py"),
    ("an option", "Run `bash tools/calls --list`.", "tools/calls takes no --list"),
    ("a command's file", "Run `./play examples/gone.calls`.", "there is no examples/gone.calls"),
    ("a command of the kit", "Run `rt prooof`.", "rt has no command prooof"),
    ("a crate of a command", "Run `rt check station`.", "there is no crate station"),
    ("a command in a block", "\n    bash compare/gone\n", "there is no command compare/gone"),
    ("a line with too many numbers", "It says `mousedown 1 2 3 4`.", "has 3 numbers, and not 4"),
    ("a line with too few numbers", "It says `move 1 2`.", "has 3 numbers, and not 2"),
    ("a method", "It is `Rect::unite`.", "there is no unite of Rect"),
    ("a function of a module", "It is `windows::inner::one::gone`.", "there is no gone of one"),
    ("a function that a module only calls", "It is `windows::inner::store::slot`.", "there is no slot of store"),
    ("a definition of a file", "The rule is `Group.gone`.", "no file Group defines gone"),
    ("a definition", "The rule is `noSuchRule`.", "no code has noSuchRule"),
    ("a lemma", "It is proved as `no-such-lemma`.", "no code has no-such-lemma"),
    ("a word of a phrase", "It is `does g noSuchCall`.", "no code has noSuchCall"),
    ("names with a common beginning", "They are `nosuch-…` there.", "no code has nosuch-…"),
    ("a lemma of another file", "See `on_test` in `sheet/specs/Sheet.antt`.", "it is not in sheet/specs/Sheet.antt"),
    ("one of two of a file", "See `Valid` and `bands` in `geom/specs/Bare.antt`.", "`Valid`: it is not in geom"),
    ("a crate", "It is in the crate `pixels`.", "there is no crate pixels"),
    ("one of two crates", "It is in the crates `geom` and `pixels`.", "there is no crate pixels"),
    ("a mistake", "Refused is the mistake `mark`.", "there is no mistake mark"),
    ("an enum", "It is the enum `Rect`.", "there is no enum Rect"),
    ("an exported call", "It calls roq_gone.", "has no roq_gone"),
    ("a constant of the header", "It is `ROQ_GONE`.", "has no ROQ_GONE"),
    ("a link", "See [there](GONE.md).", "leads to docs/GONE.md"),
    ("an anchor", "See [there](SAFETY-MANUAL.md#gone).", "docs/SAFETY-MANUAL.md has no heading #gone"),
    ("a decision", "See decision 9999.", "has no decision 9999"),
    ("an entry", "See entry 99.", "has no entry 99"),
    ("a question", "It asks question 99.", "has no question 99"),
    ("a duty", "It is duty D99.", "has no duty 99"),
    ("a count of calls", "There are 7 public calls.", "7 public calls; the number is"),
    ("a count in words", "All four requests are there.", "4 requests; the number is"),
    ("commands announced", "Nine more commands:\n\n- `bash compare/run`\n", "Nine more commands, and 1 follow"),
    (
        "a command that the gate does not run",
        "`bash bench/run`, which the gate runs, is.",
        ".ci/run does not run bench/run",
    ),
    ("a wide line", "word " * 30, "columns, and 120 are the most"),
]
# A file, what stands in it and what is put there; a file without text is renamed.
EDITS = [
    (
        "a spec renamed",
        [("crates/rules/specs/Examples.antt", None, "crates/rules/specs/Tables.antt")],
        "rules/specs/Examples.antt",
    ),
    ("a command renamed", [("tools/stack", None, "tools/depth")], "there is no command tools/stack"),
    (
        "a script renamed",
        [("examples/chain.calls", None, "examples/chains.calls")],
        "examples/chains.calls: no document",
    ),
    ("a test renamed", [("include/ids.c", None, "include/id.c")], "there is no include/ids.c"),
    (
        "a mistake renamed",
        [("mistakes/windows/move_owes_nothing.edit", None, "mistakes/windows/move.edit")],
        "move_owes_nothing.edit",
    ),
    ("a line that no proof has", [("docs/PROMISES.md", "", "\n    no-such-lemma = refl\n")], "no code has this line"),
    ("a page that nothing leads to", [("docs/NEW.md", "", "# New\n")], "docs/NEW.md: no links lead to it"),
    ("a new command", [("tools/new", "", "#!/usr/bin/env bash\n")], "tools/new: no `bash tools/new`"),
    ("a new command with --test", [("tools/new", "", "#!/usr/bin/env bash\n# --test\n")], "no command with --test new"),
    ("a new crate", [(CRATES, "", "more: geom\n")], "it has no crate more"),
    (
        "a crate that NOTICE lacks",
        [(NOTICE, FIRST, FIRST.replace("crates", "carats"))],
        "NOTICE: it has no crate of the original's geom",
    ),
    (
        "a crate too many in NOTICE",
        [(NOTICE, FIRST, f"  crates/rules/src/     from a\n{FIRST}")],
        "NOTICE: rules is no crate",
    ),
    (
        "a file of the original in NOTICE",
        [(NOTICE, "video/geom.rs", "video/gem.rs")],
        "gem.rs is no file of the original",
    ),
    ("a word that CALL-SCRIPT.md lacks", [(SCRIPT, "| `focus` |", "| `focal` |")], "it has no line focus"),
    ("a line with another count", [(SCRIPT, "| `drag ID X Y` |", "| `drag ID X` |")], "`drag ID X` has 2 numbers"),
    ("a question in other words", [(HEADER, "w x h is at most C", "w x h is below C")], "question 6 has other words"),
    ("a question that bindings lack", [("bindings/rust/src/error.rs", "    28 ", "    29 ")], "it has no question 28"),
    (
        "a question that the code lacks",
        [("crates/geom/src/refusal.rt", "WhichCall = 28,", "WhichCall = 29,")],
        "it has no question 29",
    ),
    (
        "an answer by another name",
        [(HEADER, "ROQ_ERROR_LAYER = 17", "ROQ_ERROR_LAYERS = 17")],
        "it has no answer Layer = 17",
    ),
    (
        "an answer by another number",
        [(HEADER, "ROQ_ERROR_LAYER = 17", "ROQ_ERROR_LAYER = 71")],
        "it has no answer Layer = 17",
    ),
    ("a new version in the header", [(HEADER, "VERSION_MINOR 1", "VERSION_MINOR 2")], "Cargo.toml: version 1.1.0, and"),
    ("another version in the code", [(VERSION, "MAJOR: u32 = 1", "MAJOR: u32 = 2")], f"{VERSION}: version 2.1.0, and"),
    ("another version in a page", [("docs/LINKING.md", "roqshyn 1.1 ", "roqshyn 0.1 ")], "LINKING.md: version 0.1, and"),
    ("a page without the version", [("docs/VERSIONS.md", "It is now ", "It is ")], "VERSIONS.md: version none, and"),
    (
        "a call that the header lacks",
        [(HEADER, "roq_focus(const", "roq_focused(const")],
        "it has no exported call roq_focus",
    ),
    ("a script that shows no entry", [("compare/differences/99-new.calls", "", "create\n")], "99-new.calls: docs/DIFF"),
    (
        "a session that grew",
        [("include/layout.c", "SIZE(RoqSession, 5784)", "SIZE(RoqSession, 5792)")],
        "the number is 5,792",
    ),
    (
        "a queue that grew",
        [("crates/window/src/queue.rt", "[Slot; 16]", "[Slot; 17]")],
        "16 events of a queue; the number is 17",
    ),
    (
        "a path in the header",
        [(HEADER, "worked out by tools/stack", "worked out by tools/depth")],
        "there is no tools/depth",
    ),
    ("a file in NOTICE", [(NOTICE, FIRST, FIRST.replace("geom", "gem"))], "there is no crates/gem/src"),
    ("a wide comment", [(HEADER, "/* An event.", f"/* An event. {'word ' * 25}")], "columns, and 120 are the most"),
]
PASSED = [
    "It is in `crates/geom/src/lib.rt`, `rules/specs/Group` and `group/Steps`; run `bash tools/calls --test`.",
    "It is `Rect::union`, `Group.start`, `windows::inner::one::show`, `does g k` and `roq_mark`.",
    "It says `mousedown 1 2 3` and `0 MouseDown 1 2 3`; see [there](SAFETY-MANUAL.md#figures) and question 27.",
    "It is `requires { Given self }` in the crates `windows` and `roqshyn`.",
]


def edited(files, edits):
    """The files with the first place of each edit changed."""
    files = dict(files)
    for path, old, new in edits:
        if old is None:
            files[new] = files.pop(path)
            continue
        text = files.get(path, "")
        if old not in text:
            sys.exit(f"tools/documents: the test has an edit of {path}, where this is no more: {old}")
        files[path] = text.replace(old, new, 1) if old else text + new
    return files


def is_refused(documents, part):
    return any(part in text for text in documents.wrong())


def refused_figures(documents):
    """Every figure that is stated, made greater by one wherever it is; how many there are."""
    count = 0
    for figure in FIGURES:
        for path, text in (documents.pages | documents.comments).items():
            for number, (start, end) in stated(figure, text):
                other = text[:start] + f"{number + 1:,}" + text[end:]
                said = f"{number + 1:,} {figure.what}; the number is {number:,}"
                if not any(said in line for line in wrong_figures(documents.tree, {path: other})):
                    sys.exit(f"tools/documents: {path} with {number + 1} {figure.what} is not refused")
                count += 1
    return count


def wraps(documents):
    """Wrapping keeps every word, every paragraph, and the lines that are no prose; it ends where it does not."""
    for path, text in documents.pages.items():
        other = prose.wrapped(text, 70)
        kept = [[line for line in one.split("\n") if line.lstrip().startswith(("|", "#"))] for one in (text, other)]
        counts = [len(list(prose.paragraphs(one))) for one in (text, other)]
        if text.split() != other.split() or kept[0] != kept[1] or counts[0] != counts[1]:
            sys.exit(f"tools/documents: {path} is not the same when it is wrapped")


def refused(files, original, names):
    """How many edits are refused; it ends where one is not, or where a harmless one is."""
    for what, sentence, part in SENTENCES:
        documents = Documents(edited(files, [(PAGE, "", f"\n{sentence}\n")]), original, names)
        if not is_refused(documents, part):
            sys.exit(f"tools/documents: {what} that is not there is not refused: {sentence}")
    for what, edits, part in EDITS:
        if not is_refused(Documents(edited(files, edits), original), part):
            sys.exit(f"tools/documents: {what} is not refused")
    for sentence in PASSED:
        for text in Documents(edited(files, [(PAGE, "", f"\n{sentence}\n")]), original, names).wrong():
            sys.exit(f"tools/documents: what is there is refused: {text}")
    documents = Documents(files, original, names)
    wraps(documents)
    return len(SENTENCES) + len(EDITS) + refused_figures(documents)
