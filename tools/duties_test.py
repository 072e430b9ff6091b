"""Edits of header, manual and tests that duties.py has to refuse. They are made in memory; no file is changed."""
import sys

from duties import HEADER, MANUAL, ROOT, RUNS, SPEED, TESTS, wrong

MARK = "`d7_mark_after_write`"
TRIED = f"Tried: `{TESTS}`, {MARK}."
# What it is, the file, what is replaced there by what, and a part of the sentence.
REFUSED = [
    ("a header that does not cite a duty", HEADER, "(duty D7)", "", "does not cite duty D7"),
    ("a header that cites another number", HEADER, "(duty D7)", "(duty D99)", "no duty D99"),
    ("a header that cites two at once", HEADER, "(duty D7)", "(duties D7, D8)", "not a duty in parentheses"),
    ("a header that cites without parentheses", HEADER, "(duty D7)", "Duty D7", "not a duty in parentheses"),
    ("a manual without a duty", MANUAL, "**D7. ", "**", "does not name d7_mark_after_write"),
    ("a manual with a number left out", MANUAL, "**D7. ", "**D70. ", "its duties are numbered"),
    ("a manual with a number twice", MANUAL, "**D7. ", "**D6. ", "its duties are numbered"),
    ("a duty that says not what happens", MANUAL, "Broken: what was filled", "What was filled", "D7 has no `Broken:`"),
    ("a duty that nobody notices", MANUAL, "Noticed: the screen's", "The screen's", "D7 has no `Noticed:`"),
    ("a duty without a test", MANUAL, TRIED, "", "D7 names no test"),
    ("a duty without a reason", MANUAL, "Not detectable: the compiled", "The compiled", "D6 names no test"),
    ("a duty with an empty reason", MANUAL, "Not detectable: the compiled code", "Not detectable:\n\n", "D6 names no test"),
    ("a test file that is not there", MANUAL, TRIED, TRIED.replace(TESTS, "include/gone.c"), "include/gone.c of duty D7 is not there"),
    ("a test of another name", MANUAL, MARK, "`d7_marked`", "has no d7_marked"),
    ("a test that is not run", RUNS, TESTS, "include/other.c", "does not run include/duties.c"),
    ("a test that no duty names", TESTS, "int main", "static void d7_more(void) {}\nint main", "does not name d7_more"),
    ("a test of no duty", TESTS, "int main", "static void d99_more(void) {}\nint main", "does not name d99_more"),
    ("a file that is not there", MANUAL, "`bash compare/look`", "`bash compare/looks`", "there is no compare/looks"),
    ("a spec that is not there", MANUAL, "`windows/specs/View.antt`", "`windows/specs/Views.antt`", "no windows/specs/Views.antt"),
    ("a definition that is not there", MANUAL, "`shown` of", "`low` of", "no `low` of `Rep`"),
    ("a function that calls itself, not named", MANUAL, "`walk`", "the function", "does not name visible::walk::walk"),
    ("a link that leads nowhere", MANUAL, "](PROMISES.md)", "](PROMISE.md)", "there is no docs/PROMISE.md"),
    ("another figure in the manual", MANUAL, "| session | ", "| session | 9", "not those of docs/SPEED.md"),
    ("another figure in SPEED.md", SPEED, "| longest call | ", "| longest call | 9", "not those of docs/SPEED.md"),
]


def edited(files, what, file, old, new):
    if old not in files[file]:
        sys.exit(f"tools/duties: {what} cannot be tried: {file} has no `{old}`")
    return files | {file: files[file].replace(old, new, 1)}


def refused(files):
    """Tries all of them; how many were refused."""
    exists = lambda name: (ROOT / name).exists()
    for what, file, old, new, part in REFUSED:
        said = list(wrong(edited(files, what, file, old, new), exists))
        if not any(part in text for text in said):
            sys.exit(f"tools/duties: {what} is not refused, or by other words: {said}")
    return len(REFUSED)
