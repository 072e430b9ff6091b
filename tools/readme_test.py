"""Edits of the documents and of what they quote that readme.py has to refuse, made in memory."""
import sys

from readme import ARCHITECTURE, CARGO, CRATES, README, wrong

C, RUST = "examples/c/first.c", "examples/rust/first.rs"
# What it is, the file, what is replaced there by what, and a part of the sentence.
REFUSED = [
    ("another program in C", C, "roq_mark(", "roq_show(", f"does not quote {C}"),
    ("another program in Rust", RUST, "mark(", "show(", f"does not quote {RUST}"),
    ("another quotation", README, "roq_mark(", "roq_show(", f"does not quote {C}"),
    ("a quotation without its file", README, f"<!-- {RUST} -->", "<!-- -->", f"does not quote {RUST}"),
    ("another version", CARGO, '\nversion = "', '\nversion = "9', "does not name version 9"),
    ("a README that is too long", README, "## Link it", "\n" * 150, "lines, and not 150 at most"),
    ("a line that is too wide", README, "## Link it", "## Link it" + "!" * 100, "more than 100 columns"),
    ("a crate without a row", CRATES, "geom:", "geom:\nnew: geom", "new has 0 rows"),
    ("a row without a crate", CRATES, "busiest: geom\n", "", "busiest has 1 rows"),
    ("a row of another folder", ARCHITECTURE, "(../crates/geom)", "(../crates/order)", "geom has 0 rows"),
    ("a crate that uses a higher one", CRATES, "window: geom", "window: geom order", "window uses order, which stands"),
    ("a crate on another floor", ARCHITECTURE, "crates/order) | 3", "crates/order) | 1", "order uses rules, which stands"),
    ("a crate drawn on another floor", README, "windows: every", "windows, due: every", f"{README}: due is not drawn"),
    ("a crate that is not drawn", ARCHITECTURE, "paint, winbuf", "winbuf", f"{ARCHITECTURE}: paint is not drawn"),
    ("a floor that is not drawn", README, "\nthe session ", "\n  the session ", "its drawing has 4 floors"),
]


def edited(files, what, file, old, new):
    if old not in files[file]:
        sys.exit(f"tools/readme: {what} cannot be tried: {file} has no `{old}`")
    return files | {file: files[file].replace(old, new, 1)}


def refused(files):
    """Tries all of them; how many were refused."""
    for what, file, old, new, part in REFUSED:
        said = list(wrong(edited(files, what, file, old, new)))
        if not any(part in text for text in said):
            sys.exit(f"tools/readme: {what} is not refused, or by other words: {said}")
    return len(REFUSED)
