"""readme.py [--test]: sees that README.md and docs/ARCHITECTURE.md say what the files say.

A quotation is a fenced block behind a comment with the name of its file. A drawing is a fenced block behind the comment
`floors`; a line of it that begins with a word or a number is a floor, the highest first. The table of crates in
ARCHITECTURE.md has the floor of each, 1 being the lowest.
"""
import pathlib
import re
import sys

ROOT = pathlib.Path(__file__).resolve().parent.parent
README, ARCHITECTURE, CRATES, CARGO = "README.md", "docs/ARCHITECTURE.md", "crates.txt", "bindings/rust/Cargo.toml"
# Lines and columns at most.
SIZES = {README: (150, 100), ARCHITECTURE: (150, 120)}
FLOORS = 5
QUOTED = re.compile(r"^<!-- (\S+) -->\n```\w*\n(.*?)^```$", re.M | re.S)


def read_files(root=ROOT):
    """The documents, and what they quote."""
    paths = [root / name for name in (README, ARCHITECTURE, CRATES, CARGO)]
    paths += [*root.glob("examples/c/*.c"), *root.glob("examples/rust/*.rs")]
    return {str(path.relative_to(root)): path.read_text() for path in paths}


def wrong_size(files):
    """Documents that are too long, and lines of them that are too wide, but for rows of tables."""
    for name, (most, width) in SIZES.items():
        lines = files[name].splitlines()
        if len(lines) > most:
            yield f"{name}: it has {len(lines)} lines, and not {most} at most"
        for number, line in enumerate(lines, 1):
            if len(line) > width and not line.startswith("|"):
                yield f"{name}:{number}: more than {width} columns"


def wrong_quotations(files):
    """Blocks that are not their file, and first programs that are not quoted."""
    blocks = dict(QUOTED.findall(files[README]))
    for name in ("examples/c/first.c", "examples/rust/first.rs"):
        if blocks.get(name) != files[name]:
            yield f"{README}: it does not quote {name} as it is"


def wrong_version(files):
    version = re.search(r'^version = "(.*)"$', files[CARGO], re.M)[1]
    if f"Version {version}," not in files[README]:
        yield f"{README}: it does not name version {version} of {CARGO}"


def uses(crates):
    """What each crate of crates.txt uses."""
    lines = [line.partition(":") for line in crates.splitlines() if line and not line.startswith("#")]
    return {name.removesuffix(" staticlib"): used.split() for name, _, used in lines}


def floors(text):
    """The floor of each crate, by the table of ARCHITECTURE.md."""
    rows = re.findall(r"^\| \[`(\w+)`\]\(\.\./crates/(\w+)\) \| (\d) \|", text, re.M)
    return [(name, int(floor)) for name, folder, floor in rows if name == folder]


def wrong_floors(files):
    """Crates that have not one row, and those that use one of a higher floor."""
    known, rows = uses(files[CRATES]), floors(files[ARCHITECTURE])
    names = [name for name, _ in rows]
    for name in sorted(set(known) | set(names)):
        if names.count(name) != (name in known):
            yield f"{ARCHITECTURE}: {name} has {names.count(name)} rows of crates"
    floor = dict(rows)
    for name, used in known.items():
        for other in used:
            if floor.get(other, 0) > floor.get(name, FLOORS):
                yield f"{ARCHITECTURE}: {name} uses {other}, which stands on a higher floor"


def wrong_drawings(files):
    """Drawings whose lines are not the floors of the table, the highest first."""
    rows = floors(files[ARCHITECTURE])
    for file in SIZES:
        drawn = dict(QUOTED.findall(files[file])).get("floors", "")
        lines = [line for line in drawn.splitlines() if re.match(r"\w", line)]
        if len(lines) != FLOORS:
            yield f"{file}: its drawing has {len(lines)} floors, and not {FLOORS}"
            continue
        for name, floor in rows:
            if [i for i, line in enumerate(lines) if re.search(rf"\b{name}\b", line)] != [FLOORS - floor]:
                yield f"{file}: {name} is not drawn on floor {floor} alone"


def wrong(files):
    """All that is wrong."""
    yield from wrong_size(files)
    yield from wrong_quotations(files)
    yield from wrong_version(files)
    yield from wrong_floors(files)
    yield from wrong_drawings(files)


def main(words):
    files = read_files()
    said = list(wrong(files))
    if said:
        print("\n".join(said))
        sys.exit(1)
    if words == ["--test"]:
        from readme_test import refused

        print(f"{refused(files)} edits refused")
    print(f"{README} quotes the first programs as they are, and has every crate on its floor as {ARCHITECTURE} does")


if __name__ == "__main__":
    main(sys.argv[1:])
