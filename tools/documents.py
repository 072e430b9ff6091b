"""documents.py [--write | --test]: sees that what the documents name and count is there.

The documents are all pages in Markdown but docs/PORT.md, docs/DESIGN-PASS.md and docs/LOOK-BACK.md, which set older
names beside today's, NOTICE, and the comments of the header, of the Rust bindings and of the examples. Of
docs/CHANGES.md only the newest entry is held to it. Checked are the names in backticks (named.py), the name of a thing
beside the file that has it, the exported calls, commands and code of indented blocks, links and their anchors, numbers
of decisions, questions, duties and entries, counts and sizes (figures.py), lists (listed.py), and how wide lines are. A
line says what is wrong, and the status is then 1. With --write paragraphs that are too wide are wrapped first. With
--test it also makes edits that it has to refuse (documents_test.py).

The original is in the folder ROQSHYN_ORIGINAL, or else in ../shared/docs/src beside the repository. Where it is not at
hand, names that only it has are left out.
"""
import functools
import os
import pathlib
import re
import sys

import prose
from figures import wrong_figures
from listed import wrong_lists
from named import PATH, Names, original_words
from tree import ROOT, Tree, read_files

ORIGINAL = pathlib.Path(os.environ.get("ROQSHYN_ORIGINAL") or ROOT.parent / "shared" / "docs" / "src")
CHANGES, HEADER = "docs/CHANGES.md", "include/roqshyn.h"
RECORDER = "tools/record/roqshyn_record.h"
# Comments that are documents: those of the header, of the bindings and of the examples.
COMMENTED = re.compile(
    r"include/roqshyn\.h|bindings/rust/src/\w+\.rs|examples/.*\.(?:c|rs|calls)|examples/(?:run|desk/\w+)"
)
# A path that comments and NOTICE have without backticks.
PLAIN = re.compile(
    r"(?<![\w./-])(?:\.ci|bench|bindings|compare|crates|docs|examples|include|mistakes|tools)/[\w./-]*\w"
)
# tools/trace sees to the rows of the first, and the rows of the second are calls that are still to come, too.
WITHOUT_ROWS = ("docs/TRACE.md", "docs/ADDITIONS.md")
# Names and texts as they were stand there.
OLDER = ("docs/PORT.md", "docs/DESIGN-PASS.md", "docs/LOOK-BACK.md")
# Written by bench/run.
MADE = ("docs/speed-table.md",)
# The words of a licence are kept as they were published.
UNWRAPPED = (*MADE, "NOTICE")
# Pages whose indented blocks are lines of the code.
QUOTING = ("docs/PROVING.md", "docs/PROMISES.md")
# Names that are not there, and why a document has them.
EXCEPTIONS = {
    "docs/ADDING-A-CALL.md": ("probe",),  # a word that was added to try it
    "docs/CALL-SCRIPT.md": ("read-sheet BYTE…",),  # a stand-in for numbers
    "docs/SAFETY-MANUAL.md": (".bss",),  # a section that an archive does not have
    "docs/TRACE.md": ("N5.2", "File.name", "crate/File.name", "crate::path::function"),  # forms of names
}
WIDTHS = {"README.md": 100}
WIDTH = 120
BESIDE = re.compile(
    r"((?:`[^`]+`(?:,\s+(?:and\s+)?|\s+and\s+))*`[^`]+`),?\s+(?:at\s+the\s+end\s+of\s+|in\s+|of\s+|\()`([\w.+/-]+)`"
)
NUMBERED = (
    (r"[Dd]ecisions? (\d+(?:(?:, | and | to )\d+)*)", "docs/DECISIONS.md", r"^(?:- \*\*)?(\d+)\. ", "decision"),
    (r"[Ee]ntry (\d+)", "docs/DIFFERENCES.md", r"^## (\d+)\.", "entry"),
    (r"[Qq]uestions? (\d+(?:(?:, | and | to )\d+)*)", HEADER, r"^ \* +(\d+)  ", "question"),
    (r"\bdut(?:y|ies) D(\d+)", "docs/SAFETY-MANUAL.md", r"^\*\*D(\d+)\. ", "duty"),
)


def newest(text):
    """The page of changes with its first entry, which is the newest, and blank lines for the others."""
    entries = [found.start() for found in re.finditer(r"^## ", text, re.M)]
    end = entries[1] if len(entries) > 1 else len(text)
    return text[:end] + "\n" * text[end:].count("\n")


class Documents:
    def __init__(self, files, original, names=None):
        self.tree = Tree(files)
        self.names = names or Names(self.tree, original)
        headers = without_comments(files[HEADER] + files[RECORDER])
        self.exported = set(re.findall(r"\b(?:roq_\w+|Roq[A-Z]\w*|ROQ_\w+)", headers))
        pages = [path for path in sorted(files) if path.endswith(".md") or path == "NOTICE"]
        self.pages = {path: files[path] for path in pages if path not in OLDER}
        self.pages = {path: newest(text) if path == CHANGES else text for path, text in self.pages.items()}
        self.comments = {path: text for path, text in sorted(files.items()) if COMMENTED.fullmatch(path)}

    def paragraphs(self, path, text):
        """Those of a document that are held to it."""
        for paragraph in (prose.comments if path in self.comments else prose.paragraphs)(text):
            if path not in MADE and (path not in WITHOUT_ROWS or not paragraph.is_row):
                yield paragraph

    def wrong_pages(self):
        """What is wrong with each text; it is looked at once with the same names."""
        for path, text in (self.pages | self.comments).items():
            if (path, text) not in self.names.seen:
                paragraphs = list(self.paragraphs(path, text))
                said = [*self.wrong_names(path, paragraphs), *self.wrong_beside(path, paragraphs)]
                said += self.wrong_quotations(path, text) if path in QUOTING else ()
                self.names.seen[path, text] = said
            yield from self.names.seen[path, text]

    def folders(self, paragraph):
        """The crates and folders that a paragraph names, in which the files lie that it names from there on."""
        found = set()
        for span, _, _ in paragraph.spans():
            first, *rest = span.strip("/").split("/")
            if first == "crates" and rest:
                found.add(f"crates/{rest[0]}/")
            elif first in self.tree.crates:
                found.add(f"crates/{first}/")
            elif first in self.tree.folders and first not in (".", "docs", "crates"):
                found.add(f"{first}/")
        return found if "crates/*/" not in found else set()

    def wrong_names(self, path, paragraphs):
        for paragraph in paragraphs:
            folders = self.folders(paragraph)
            for span, line, found in paragraph.spans():
                said = self.names.wrong(span, paragraph.text[: found.start()], folders, path)
                if said and span not in EXCEPTIONS.get(path, ()):
                    yield f"{path}:{line}: `{span}`: {said}"

    def wrong_beside(self, path, paragraphs):
        """`few-made` in `sheet/proofs/laws/Bounds.antt`: that file has it."""
        for paragraph in paragraphs:
            for found in BESIDE.finditer(paragraph.text):
                places = self.names.files_of(found[2]) if PATH.fullmatch(found[2]) else []
                for name in re.findall(r"`([\w-]+)`", found[1]) if places else ():
                    if not self.names.stands_in(name, places):
                        line = paragraph.line + paragraph.text.count("\n", 0, found.start())
                        yield f"{path}:{line}: `{name}`: it is not in {found[2]}"

    def wrong_exported(self):
        """Names of the header, with backticks or without."""
        for path, text in (self.pages | self.comments).items():
            for found in re.finditer(r"\b(?:roq_\w+|Roq[A-Z]\w*|ROQ_\w+)(?!…|\w)", text):
                if found[0] not in self.exported and not found[0].endswith("_"):
                    yield f"{path}:{prose.line_at(text, found.start())}: {HEADER} has no {found[0]}"

    def wrong_paths(self):
        """Paths in comments and in NOTICE, where backticks are not usual."""
        for path, text in (self.comments | {"NOTICE": self.pages["NOTICE"]}).items():
            for paragraph in prose.comments(text) if path in self.comments else [prose.Paragraph(text, 1)]:
                for found in PLAIN.finditer(paragraph.text):
                    if not self.names.is_there(found[0]):
                        line = paragraph.line + paragraph.text.count("\n", 0, found.start())
                        yield f"{path}:{line}: there is no {found[0]}"

    def wrong_blocks(self):
        """Commands in indented blocks."""
        for path, text in self.pages.items():
            for found in re.finditer(r"^    ((?:bash|rt|\./\S+) ?[^#\n]*)", text, re.M):
                said = self.names.command(found[1].strip(), set(), path)
                if said:
                    yield f"{path}:{prose.line_at(text, found.start())}: {found[1].strip()}: {said}"

    def wrong_quotations(self, path, text):
        """Lines of code in indented blocks stand in the code."""
        code = [flat(said) for file, said in self.tree.files.items() if file.endswith((".antt", ".rt"))]
        for found in re.finditer(r"(?<=\n\n)(?: {4,}\S.*\n\n?)+", text):
            for line in found[0].splitlines():
                if line and not any(flat(line) in one for one in code):
                    at = text.index(line, found.start())
                    yield f"{path}:{prose.line_at(text, at)}: no code has this line: {line.strip()}"

    def wrong_links(self):
        for path, text in self.pages.items():
            for link, line in prose.links(text):
                page, _, anchor = link.partition("#")
                place = prose.target(path, page)
                if "://" in link:
                    continue
                if place not in self.tree.files and place not in self.tree.folders:
                    yield f"{path}:{line}: a link leads to {place}, which is not there"
                elif anchor and anchor not in prose.anchors(self.tree.files.get(place, "")):
                    yield f"{path}:{line}: {place} has no heading #{anchor}"

    def wrong_numbers(self):
        """Decisions, entries, questions and duties that are cited by a number."""
        for form, home, there, what in NUMBERED:
            known = set(re.findall(there, self.tree.files[home], re.M))
            for path, text in (self.pages | self.comments).items():
                for found in re.finditer(form.replace(" ", r"[\s*]+"), text):
                    for number in re.findall(r"\d+", found[1]):
                        if number not in known:
                            yield f"{path}:{prose.line_at(text, found.start())}: {home} has no {what} {number}"

    def wrong_widths(self):
        for path, text in self.pages.items():
            for line, columns in prose.wide_lines(text, WIDTHS.get(path, WIDTH)) if path not in UNWRAPPED else ():
                yield f"{path}:{line}: {columns} columns, and {WIDTHS.get(path, WIDTH)} are the most"
        for number, line in enumerate(self.tree.files[HEADER].split("\n"), 1):
            if len(line) > WIDTH and re.match(r"/\*| \*", line):
                yield f"{HEADER}:{number}: {len(line)} columns, and {WIDTH} are the most"

    def wrong(self):
        yield from wrong_lists(self.tree)
        yield from wrong_figures(self.tree, self.pages | self.comments)
        yield from self.wrong_exported()
        yield from self.wrong_paths()
        yield from self.wrong_blocks()
        yield from self.wrong_links()
        yield from self.wrong_numbers()
        yield from self.wrong_widths()
        yield from self.wrong_pages()


@functools.cache
def flat(text):
    return " ".join(text.split())


def without_comments(text):
    return re.sub(r"/\*.*?\*/", "", text, flags=re.S)


def by_place(said):
    """A line's file and number."""
    path, _, rest = said.partition(":")
    return path, int((re.match(r"\d+", rest) or "0")[0]), rest


def write(files):
    """Wraps what is too wide, but for what is no prose of today."""
    for path, text in files.items():
        if path.endswith(".md") and path not in UNWRAPPED:
            files[path] = prose.wrapped(text, WIDTHS.get(path, WIDTH))
            if files[path] != text:
                (ROOT / path).write_text(files[path])


def main(words):
    files, original = read_files(), original_words(ORIGINAL)
    if words == ["--write"]:
        write(files)
    documents = Documents(files, original)
    said = sorted(set(documents.wrong()), key=by_place)
    if said:
        print("\n".join(said))
        sys.exit(1)
    if words == ["--test"]:
        from documents_test import refused

        print(f"{refused(files, original, documents.names)} edits refused")
    if original is None:
        print(f"left out: names of the original, whose files are not under {ORIGINAL}")
    pages, comments = documents.pages, documents.comments
    paragraphs = [one for path, text in (pages | comments).items() for one in documents.paragraphs(path, text)]
    names = sum(1 for paragraph in paragraphs for _ in paragraph.spans())
    print(f"{len(pages)} documents and the comments of {len(comments)} files: {names} names are there")


if __name__ == "__main__":
    main(sys.argv[1:])
