"""Matrices that trace.py has to refuse, and some that it must not: edits of files and documents, in memory."""
import re
import sys

from matrix import ADDITIONS, REQUESTS, SCOPE, TRACE, Matrix

SPEC = "crates/busiest/specs/Busiest.antt"
CODE, VERSION = "crates/roqshyn/src/times.rt", "crates/roqshyn/src/version.rt"
EDIT = "mistakes/busiest/one_more.edit"
PEEK = '#[unsafe(no_mangle)]\npub extern "C" fn roq_peek() -> u32 ensures { result ≡ 0 } { 0 }\n'
ROW = r"\| N13\.3 \|[^\n]*\n"
MISSING = "Missing: "

# What is edited: a file or a document, a pattern ("" is its end), and what is put for the first place that has it. Then
# the line that has to be printed. These need no documents.
REFUSED = [
    ("a name that is gone", [(TRACE, r"`compare/panels`", "`compare/panel`")], "`compare/panel` is not there"),
    ("a theorem that is gone", [(TRACE, r"`either_order`", "`either_ordre`")], "`either_ordre` is not there"),
    ("a definition that is gone", [(TRACE, r"`Run\.Run`", "`Run.Ran`")], "`Run.Ran` is not there"),
    (
        "a definition by another name",
        [(SPEC, r"in_span :", "in_a_span :"), (SPEC, r"\nin_span", "\nin_a_span")],
        "`Busiest.in_span`",
    ),
    (
        "a table of calls by another name",
        [("crates/windows/specs/View.antt", r"pub ruled :", "pub ruled_by :")],
        "does not define ruled",
    ),
    ("a mistake that is gone", [(TRACE, r"`due/back_not_full`", "`due/back_full`")], "`due/back_full` is not there"),
    ("a function that is gone", [(TRACE, r"`geom::FULL`", "`geom::EMPTY`")], "`geom::EMPTY` is not there"),
    ("a name of two things", [(TRACE, r"`winbuf/Limits\.table`", "`Limits.table`")], "stands for more than one thing"),
    (
        "a stale proof",
        [(TRACE, r"`busiest::busiest`, `roqshyn::roq_busiest`", "`busiest::busiest`")],
        "`proof` is stale",
    ),
    ("a stale test", [(TRACE, r"`Examples\.equal_times`, `compare", "`compare")], "`test` is stale"),
    ("a kind that is none", [(TRACE, r"equal times \| rule", "equal times | rules")], "N13.3: its kind is none of"),
    ("no words", [(TRACE, r"\| equal times \|", "| |")], "N13.3: no words say what it is about"),
    ("no word why", [(TRACE, r"it says how panel programs run", "")], "N14.1: no word says why it is background"),
    ("no test", [(TRACE, r"rule \| `Examples\.fires`, ", "rule | ")], "N8.2: it is a rule, and has no test"),
    ("no place of a form", [(TRACE, r"form \| `look::Zoom`", "form |")], "01 Places 6: it is a form, and has no code"),
    ("a question that no row says", [(TRACE, r"question 27:", "27:")], "question 27: no sentence"),
    (
        "a question beside no asker",
        [(TRACE, r"question 27:", "27:"), (TRACE, r"\| a mark \|", "| question 27 |")],
        "question 27: no sentence",
    ),
    ("a new exported call", [(CODE, "", PEEK)], "roqshyn::roq_peek: no sentence"),
    ("a call of no sentence that is gone", [(VERSION, "roq_version", "version")], "roqshyn::roq_version: it is no public"),
    ("a new mistake", [(EDIT, "", "file: src/main.rt\nold: a\nnew: b\n")], f"{EDIT}: no sentence"),
    (
        "a mistake that no row has",
        [(TRACE, r", `order/top_past_the_layers`", "")],
        "top_past_the_layers.edit: no sentence",
    ),
    ("two rows of one sentence", [(TRACE, rf"({ROW})", r"\1\1")], "N13.3 has two rows"),
    ("no row of ours", [(TRACE, r"\| A1\.2 \|[^\n]*\n", "")], "A1.2 has no row"),
    ("a row of what has not landed", [(TRACE, r"\| A1\.2 \|", "| A9.2 |")], "A9.2 is no sentence"),
    ("a part that has landed", [(TRACE, r"(?m)^\| A4\.1 .*\n", "")], "A4.1 has no row"),
    (
        "a sentence of ours that changed",
        [(ADDITIONS, r"puts a shown window above", "puts a shown window over")],
        "A1.2: the sentence has changed",
    ),
    (
        "missing, and is not",
        [(TRACE, MISSING + "nothing", MISSING + "N8.2 (test)")],
        "N8.2 (test) is named as missing, and is not",
    ),
    (
        "missing, and not named",
        [(TRACE, r"(\| 03 Lines 3 \|[^\n]*), `compare/layers\.calls`", r"\1")],
        "03 Lines 3: it is a rule, and has no test",
    ),
]
# These need them.
WITH_DOCUMENTS = [
    (
        "no proof",
        [
            (TRACE, r"rule \| `replay::Player::line`, `Played\.Plays`, ", "rule | "),
            ("crates/replay/specs/Played.antt", r'"None of these lines uses up a pending lend\."', "no lend is used up"),
        ],
        "03 Lines 3: it is a rule, and has no proof",
    ),
    (
        "a quotation of nothing",
        [(SPEC, '"the greatest number"', '"the largest number"')],
        "no document has the words “the largest",
    ),
    (
        "a quotation that is gone",
        [(SPEC, ' "Equal times count separately"', "")],
        "N13.3: the cell `quoted by` is stale",
    ),
    ("no row", [(TRACE, ROW, "")], "N13.3 has no row"),
    (
        "a row of no sentence",
        [(TRACE, rf"({ROW})", r"\1| N13.99 | 0 | a | rule | | | | | | |\n")],
        "N13.99 is no sentence",
    ),
    (
        "a sentence that changed",
        [(REQUESTS, r"Equal times count", "Equal times do not count")],
        "N13.3: the sentence has changed",
    ),
    ("a new sentence", [(SCOPE, r"Writes off the screen are skipped\.", r"\g<0> So be it.")], "01 Group 15 has no row"),
    (
        "another document 03",
        [(ADDITIONS, r"A finger that grabs", "A thumb that grabs")],
        "it is not document 03 any more",
    ),
]
PASSED = [
    ("a definition further down", [(SPEC, r"\n-- the \"number", "\n\n-- the \"number")]),
    ("words of ours", [(TRACE, r"\| equal times \|", "| times that are equal |")]),
]


def edited(texts, edits):
    """The texts with the first place of each edit changed; an edit of another text is passed over."""
    texts = dict(texts)
    for name, pattern, new in edits:
        if not pattern:
            texts[name] = texts.get(name, "") + new
        elif name in texts:
            if not re.search(pattern, texts[name]):
                sys.exit(f"tools/trace: the test has an edit of {name}, where this is no more: {pattern}")
            texts[name] = re.sub(pattern, new, texts[name], count=1)
    return texts


def tried(files, documents, edits):
    """What is wrong after the edits."""
    ours = [edit for edit in edits if edit[0] not in (SCOPE, REQUESTS)]
    theirs = [edit for edit in edits if edit[0] in (SCOPE, REQUESTS)]
    matrix = Matrix(edited(files, ours), edited(documents, theirs))
    matrix.check()
    return matrix.wrong


def refused(files, documents):
    """How many matrices are refused; it ends where one is not, or where a harmless one is."""
    cases = REFUSED + (WITH_DOCUMENTS if documents else [])
    for what, edits, line in cases:
        if not any(line in text for text in tried(files, documents, edits)):
            sys.exit(f"tools/trace: {what} is not refused")
    for what, edits in PASSED:
        for text in tried(files, documents, edits):
            sys.exit(f"tools/trace: {what} is refused: {text}")
    for text in tried(files, {}, []):
        sys.exit(f"tools/trace: without the documents it is refused: {text}")
    return len(cases)
