"""Counts and sizes that documents state, and where the true ones are.

A figure has a place of the code, as a file and the words around the number there, or a function that counts; and the
sentences in which documents state it. {} is the number, in digits or in words. Stack and times of the safety manual are
seen to by tools/stack and tools/duties.
"""
import functools
import re

import calls
import prose
import stack

WORDS = "one two three four five six seven eight nine ten eleven twelve thirteen fourteen fifteen sixteen".split()
NUMBERS = {word: number for number, word in enumerate(WORDS, 1)}
NUMBER = r"(?P<number>\d[\d,]*\d|\d|" + "|".join(WORDS) + ")"


class Figure:
    def __init__(self, what, true, *said):
        self.what, self.true, self.said = what, true, said


def at(path, words, change=lambda number: number):
    """The number that stands in this file between these words, or another that follows from it."""

    def read(tree):
        found = re.search(words.replace("{}", r"(\d+)"), tree.files.get(path, ""))
        return change(int(found[1])) if found else None

    return read


def highest(path, words):
    """The last of numbers that go up from 1, or nothing where one is left out."""

    def read(tree):
        found = {int(number) for number in re.findall(words.replace("{}", r"(\d+)"), tree.files.get(path, ""), re.M)}
        return len(found) if found == set(range(1, len(found) + 1)) else None

    return read


@functools.cache
def public_calls(crates):
    """Those that tools/calls finds, in crates that are read once for the same files."""
    return calls.public_calls([calls.crate(name, files) for name, files in crates])


def all_calls(tree):
    code = [(path, text) for path, text in tree.files.items() if path.endswith(".rt")]
    return public_calls(tuple((n, tuple(p for p in code if p[0].startswith(f"crates/{n}/"))) for n in tree.crates))


PLAYER, HITS = "crates/replay/src/player.rt", ("crates/rules/specs/Hits.antt", "leb given {} ")
WINDOWS = "crates/windows/src/lib.rt", r"pub windows: \[Window; {}\]"
SESSION = "include/layout.c", r"SIZE\(RoqSession, {}\)"
PIXELS = "C is at most {}(?!\w)", "window has at most {} pixels", "#define ROQ_PIXELS {}"
FIGURES = (
    Figure(
        "bytes of a session",
        at(*SESSION),
        "session takes {} bytes(?! more)",
        r"\| session \| {} bytes",
        r"/\* {} bytes\. \*/\ntypedef struct RoqSession",
        "#define ROQ_SESSION_SIZE {}",
        r"size of a session\*\*, {} bytes",
    ),
    Figure(
        "words of a session",
        at(*SESSION, lambda size: size // 8),
        r"uint64_t words\[{}\]",
        r"words: \[u64; {}\]",
        "{} numbers of 64 bits",
    ),
    Figure(
        "windows",
        at(*WINDOWS),
        "(?:exactly|store has|store of) {} [x×] C pixels",
        "id is below {} and",
        "store of {} windows",
        "{} windows (?:of 348|and what they share)",
        "#define ROQ_WINDOWS {}",
        "#define ROQ_NOBODY {}",
    ),
    Figure("greatest id", at(*WINDOWS, lambda count: count - 1), "Ids are 0 to {}"),
    Figure(
        "displays",
        at("crates/display/src/lib.rt", r"pub areas: \[Rect16; {}\]"),
        "up to {} displays",
        "fewer than {} displays",
        "up to {} of them in one session",
        "There are up to {}, in order",
        "#define ROQ_DISPLAYS {}",
    ),
    Figure(
        "events of a queue",
        at("crates/window/src/queue.rt", r"pub slots: \[Slot; {}\]"),
        "a queue of {} (?:events|slots)",
        "fewer than {} events wait",
    ),
    Figure("greatest C", at("crates/rules/specs/Group.antt", "allowed_c c = leb 1 c && leb c {}"), "C is 1 to {}", *PIXELS),
    Figure(
        "greatest coordinate",
        at("crates/geom/specs/Questions.antt", "small n = leb n {}"),
        "sizes are at most {}",
        r"its x \+ w and y \+ h are at most {}",
        "height are 1 to {}",
    ),
    Figure("points", at(*HITS, lambda numbers: numbers // 2), "at most {} points", "up to {} points"),
    Figure("numbers that points are given by", at(*HITS), "#define ROQ_POINTS_LEN {}"),
    Figure(
        "numbers that points are answered by",
        at(*HITS, lambda numbers: 3 * numbers // 2),
        "answers; {} numbers always suffice",
        "#define ROQ_HITS_LEN {}",
        r"lent {} numbers \| `ANSWER` and three",
    ),
    Figure(
        "event times",
        at("crates/busiest/specs/Busiest.antt", r"26 is leb \(length run\) {}\)"),
        "run has at most {} times",
        "A run of {} event times",
    ),
    Figure(
        "numbers of a visible list",
        at("crates/replay/src/lend.rt", r"list_len\(p, {}\)"),
        "list; {} numbers always suffice. A hidden",
        "#define ROQ_VISIBLE_LEN {}",
        "the visible list, lent {} numbers",
    ),
    Figure(
        "bytes of a sheet",
        at("crates/replay/src/sheets.rt", r"fn buffer\(\) -> \[u8; {}\]"),
        "buffer; {} bytes always suffice",
        "#define ROQ_SHEET_LEN {}",
        "of the window, lent {} bytes",
        "a buffer of at most {} bytes",
    ),
    Figure(
        "numbers of a sheet that is read",
        at(PLAYER, r"list: &mut \[u32; {}\]"),
        "a list of at most {} numbers",
        "else malformed; lent {} numbers",
        "list; {} numbers always suffice, and",
        "#define ROQ_READ_SHEET_LEN {}",
    ),
    Figure("pixels of replay's store", at(PLAYER, r"store: &mut \[u32; {}\]"), "a store of at most {} pixels"),
    Figure(
        "pixels of replay's screen",
        at(PLAYER, r"screen: &mut \[u32; {}\]"),
        "a screen of at most {}",
        "a screen of {} pixels, [0-9,]* numbers of a blit",
        "`picture` of more than {} pixels",
    ),
    Figure(
        "pixels of replay's target",
        at("crates/replay/src/looks.rt", r"4294967295u32; {}\]"),
        "target of at most {} pixels",
    ),
    Figure(
        "as the least C that replay cannot lend",
        at("crates/replay/src/calls.rt", "if {} < c ", lambda most: most + 1),
        "C from {} on",
    ),
    Figure(
        "numbers of a line",
        at("crates/script/src/table.rt", "DATA: usize = {}"),
        "DATA are at most {} numbers",
        "N… is 0 to {} numbers",
        "BYTE… is 0 to {} numbers",
    ),
    Figure(
        "numbers of a blit",
        at("crates/script/src/table.rt", "BLIT: usize = {}"),
        "DATA is 0 to {} numbers",
        "{} numbers of a blit",
    ),
    Figure(
        "times of a line",
        at("crates/script/src/table.rt", "TIMES: usize = {}"),
        "T… is 0 to {} times",
        "script may have {} numbers",
    ),
    Figure(
        "letters of a picture's name",
        at("crates/script/src/name.rt", "LONGEST: usize = {}"),
        r"current folder \(1 to {} letters",
    ),
    Figure(
        "requests",
        highest("docs/TRACE.md", "^## Document 02, N{}:"),
        "all {} requests",
        "come after all {}, each",
        r"\*\*N1\*\* to \*\*N{}\*\*",
    ),
    Figure("additions", highest("docs/ADDITIONS.md", r"^A{} \*\*"), r"\*\*A1\*\* to \*\*A{}\*\*"),
    Figure("duties", highest("docs/SAFETY-MANUAL.md", r"^\*\*D{}\. "), "duties of a caller, D1 to D{}"),
    Figure(
        "files of the original",
        at("compare/original/build.rs", r"const ORIGINAL: .*; {}\]"),
        "original's {} files",
        "is its own {} files",
    ),
    Figure(
        "commands of compare/ beside its first",
        lambda tree: sum(command.startswith("compare/") for command in tree.commands) - 1,
        r"compare/README\.md\) has {} more",
        "{} more commands:",
    ),
    Figure(
        "functions that call themselves",
        lambda tree: len(stack.DEPTHS),
        "{} functions call themselves",
        "{} function calls itself",
    ),
    Figure("public calls", lambda tree: len(all_calls(tree)), "{} public calls"),
    Figure("exported calls", lambda tree: sum(call.exported for call in all_calls(tree)), "{} exported calls"),
    Figure("crates", lambda tree: len(tree.crates), "all {} crates", "{} crates of the library"),
)


def number_of(text):
    """As 5,784 or eight is written."""
    return NUMBERS.get(text.lower()) or int(text.replace(",", ""))


@functools.cache
def found_in(sentence, text):
    """Where a text has such a sentence, which may be broken into lines, also in comments."""
    words = re.findall(r"[A-Za-z]{4,}", re.sub(r"\(\?.*?\)|\[.*?\]|\\.", " ", sentence))
    if not all(word in text for word in words):
        return ()
    form = sentence.replace(" ", r"[\s*/]+").replace("{}", NUMBER)
    return tuple((number_of(found["number"]), found.span("number")) for found in re.finditer(form, text, re.I))


def stated(figure, text):
    """The numbers that a text states for it, each with its place."""
    return [found for sentence in figure.said for found in found_in(sentence, text)]


def wrong_figures(tree, texts):
    """Where a document states another number than the code has."""
    for figure in FIGURES:
        true = figure.true(tree)
        for path, text in texts.items():
            for number, (start, _) in stated(figure, text):
                if number != true:
                    known = "cannot be found" if true is None else f"is {true:,}"
                    yield f"{path}:{prose.line_at(text, start)}: {number:,} {figure.what}; the number {known}"
