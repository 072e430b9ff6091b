"""duties.py [--write | --test]: sees that header, manual and tests have the same duties of a caller.

A duty of the manual is a paragraph that begins with `**D7. `. It has a sentence after `Broken:` and one after
`Noticed:`, and either `Tried:` with files and names in them, or `Not detectable:` with the reason. The header cites it by
`(duty D7)`. A function of include/duties.c belongs to the duty whose number it begins with, as d7_mark_after_write. A
test in C is one that include/test compiles.
"""
import pathlib
import re
import sys

from stack import DEPTHS

ROOT = pathlib.Path(__file__).resolve().parent.parent
MANUAL, HEADER, SPEED = "docs/SAFETY-MANUAL.md", "include/roqshyn.h", "docs/SPEED.md"
TESTS, RUNS = "include/duties.c", "include/test"
BEGIN, END = "<!-- tools/duties -->\n", "<!-- end -->"
# The rows of the first table of SPEED.md that the manual has.
FIGURES = ("longest call", "session", "store of", "screen")
# A file in the manual's words: `docs/SPEED.md`, `bash bench/run`, `visible/specs/inner/Seen.antt`. Another repository's
# or a made one is not looked for.
NAMED = re.compile(r"`(?:bash )?((?:[\w.+-]+/)+[\w.+-]*)[^`]*`|\]\(([^)#:]+)[^)]*\)")
MADE = ("target/", "out/")
# A definition and its part: `few` of `Table`, `visible/specs/inner/Seen.antt`.
DEFINED = re.compile(r"`(\w+)`\s+of\s+`(\w+)`,\s+`([\w./+-]+)`")


def read_files(root=ROOT):
    """The texts that are compared."""
    return {name: (root / name).read_text() for name in (MANUAL, HEADER, SPEED, TESTS, RUNS)}


def duties(manual):
    """The paragraphs of the duties, by their numbers, in the manual's order."""
    return [(int(number), text) for number, text in re.findall(r"^\*\*D(\d+)\. (.*?)(?=^\*\*D\d+\. |^#|\Z)", manual, re.M | re.S)]


def wrong_numbers(found, header):
    """Numbers that are not 1, 2, 3 and so on, and those that only one of the two has."""
    numbers = [number for number, _ in found]
    if numbers != list(range(1, len(numbers) + 1)):
        yield f"{MANUAL}: its duties are numbered {' '.join(map(str, numbers))}"
    cited = {int(number) for number in re.findall(r"\(duty D(\d+)\)", header)}
    yield from [f"{HEADER}: it does not cite duty D{number}" for number in sorted(set(numbers) - cited)]
    yield from [f"{MANUAL}: it has no duty D{number}, which {HEADER} cites" for number in sorted(cited - set(numbers))]
    for words in re.findall(r"[Dd]ut(?:y|ies) D[^)]*", header):
        if not re.fullmatch(r"duty D\d+", words):
            yield f"{HEADER}: `{words}` is not a duty in parentheses"


def wrong_duty(number, text, files, exists):
    """What a duty lacks, and tests that it names and that are not there."""
    for word in ("Broken:", "Noticed:"):
        if word not in text:
            yield f"{MANUAL}: duty D{number} has no `{word}`"
    tried = re.search(r"Tried: (.*?)\.(?:\s|$)", text, re.S)
    if not tried and not re.search(r"Not detectable: \w", text):
        yield f"{MANUAL}: duty D{number} names no test, and does not say why it cannot be detected"
    for file, name in re.findall(r"`([\w/.-]+)`(?:,\s+`(\w+)`)?", tried[1]) if tried else ():
        if not exists(file):
            yield f"{MANUAL}: the test {file} of duty D{number} is not there"
        elif name and not re.search(rf"\b{name}\b", text_of(files, file)):
            yield f"{MANUAL}: {file} has no {name}, which duty D{number} names"
        elif file.endswith(".c") and file not in files[RUNS]:
            yield f"{MANUAL}: {RUNS} does not run {file}, which duty D{number} names"


def text_of(files, file):
    return files.get(file) or (ROOT / file).read_text()


def wrong_tests(found, files):
    """Functions of include/duties.c that the duty of their number does not name."""
    texts = dict(found)
    for name, number in re.findall(r"^static void (d(\d+)_\w+)\(void\)", files[TESTS], re.M):
        if f"`{name}`" not in texts.get(int(number), ""):
            yield f"{TESTS}: duty D{number} of {MANUAL} does not name {name}"


def wrong_places(manual, exists):
    """Files that the manual names and that are not there. A crate's file may be named from its crate on."""
    for code, link in NAMED.findall(manual):
        name = code or f"docs/{link}"
        if not name.startswith(MADE) and not exists(name) and not exists(f"crates/{name}"):
            yield f"{MANUAL}: there is no {name}"
    for part, whole, file in DEFINED.findall(manual):
        said = (ROOT / "crates" / file).read_text() if exists(f"crates/{file}") else ""
        if not re.search(rf"\brecord {whole}\b.*?\bpub {part} :", said, re.S):
            yield f"{MANUAL}: {file} has no `{part}` of `{whole}`"
    for name in DEPTHS:
        if f"`{name.rpartition('::')[2]}`" not in manual:
            yield f"{MANUAL}: it does not name {name}, which calls itself"


def figures(speed):
    """The rows of SPEED.md's first table that the manual has, with its heading."""
    table = re.search(r"^\|.*?(?=^[^|])", speed, re.M | re.S)
    rows = table[0].splitlines() if table else []
    kept = [row for row in rows[2:] if row.strip("| ").startswith(FIGURES)]
    return "".join(f"{row}\n" for row in rows[:2] + kept)


def with_figures(manual, speed):
    before, _, rest = manual.partition(BEGIN)
    if END not in rest:
        sys.exit(f"tools/duties: {MANUAL} has no table between {BEGIN.strip()} and {END}")
    return before + BEGIN + figures(speed) + END + rest.partition(END)[2]


def wrong(files, exists):
    """All that is wrong."""
    found = duties(files[MANUAL])
    if not found:
        yield f"{MANUAL}: it has no duty"
    yield from wrong_numbers(found, files[HEADER])
    for number, text in found:
        yield from wrong_duty(number, text, files, exists)
    yield from wrong_tests(found, files)
    yield from wrong_places(files[MANUAL], exists)
    if with_figures(files[MANUAL], files[SPEED]) != files[MANUAL]:
        yield f"{MANUAL}: its times and sizes are not those of {SPEED}: bash tools/duties --write"


def main(words):
    files = read_files()
    if words == ["--write"]:
        files[MANUAL] = with_figures(files[MANUAL], files[SPEED])
        (ROOT / MANUAL).write_text(files[MANUAL])
    said = list(wrong(files, lambda name: (ROOT / name).exists()))
    if said:
        print("\n".join(said))
        sys.exit(1)
    if words == ["--test"]:
        from duties_test import refused

        print(f"{refused(files)} edits refused")
    found = duties(files[MANUAL])
    tried = sum("Tried:" in text for _, text in found)
    print(f"{len(found)} duties in {HEADER} and {MANUAL}, {tried} tried by a test, the others marked as not detectable")


if __name__ == "__main__":
    main(sys.argv[1:])
