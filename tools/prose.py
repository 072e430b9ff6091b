"""A document by its paragraphs: what stands in backticks, links, headings and lines that are too wide."""
import dataclasses
import functools
import posixpath
import re
import textwrap

SPAN = re.compile(r"(?<!`)`([^`]+)`(?!`)")
LINK = re.compile(r"\]\(([^)\s]+)\)")
# Where a paragraph begins although no blank line stands before it: a heading, a row, a point of a list.
BEGINS = re.compile(r"#+ |\s*\||\s*- |\d+\. |```|<!--")
SAID_IN_CODE = re.compile(r"//[/!]? ?(.*)|^ ?/?\*+ ?(.*?)(?:\*/)?$|# (.*)")


@dataclasses.dataclass
class Paragraph:
    text: str
    line: int
    # The folders and files that were named before it under the same heading, and the heading.
    heading: str = ""

    def spans(self):
        """What stands in backticks, with its line and where it ends; a line break in it is a space."""
        for found in SPAN.finditer(self.text):
            line = self.line + self.text.count("\n", 0, found.start())
            yield " ".join(found[1].split()), line, found

    @property
    def is_row(self):
        return self.text.lstrip().startswith("|")


def line_at(text, at):
    return text.count("\n", 0, at) + 1


def target(page, link):
    """The path that a link of a page means."""
    return posixpath.normpath(posixpath.join(posixpath.dirname(page), link)) if link else page


@functools.cache
def without_blocks(text):
    """Examples of input and output are no prose: fenced and indented blocks become blank lines."""
    blank = lambda found: "\n" * found[0].count("\n")
    text = re.sub(r"^```.*?^```$", blank, text, flags=re.M | re.S)
    return re.sub(r"(?:(?<=\n\n)|\A)(?: {4}(?![ ]*[-*\d|]).*\n)+(?=\n|\Z)", blank, text)


def paragraphs(text):
    """Those of a document in Markdown."""
    heading, kept = "", None
    for number, line in enumerate(without_blocks(text).split("\n"), 1):
        if kept and (not line.strip() or BEGINS.match(line)):
            yield kept
            kept = None
        if line.startswith("#"):
            heading = line
        if line.strip():
            kept = Paragraph(f"{kept.text}\n{line}", kept.line, heading) if kept else Paragraph(line, number, heading)
    if kept:
        yield kept


def comments(text):
    """The comments of a file of C or Rust, as paragraphs of their lines."""
    kept = None
    for number, line in enumerate(text.split("\n"), 1):
        said = SAID_IN_CODE.search(line)
        words = next((part for part in said.groups() if part is not None), "") if said else ""
        if kept and not words.strip():
            yield kept
            kept = None
        elif words.strip():
            kept = Paragraph(f"{kept.text}\n{words}", kept.line) if kept else Paragraph(words, number)
    if kept:
        yield kept


def links(text):
    """The targets of links, with their lines."""
    for found in LINK.finditer(without_blocks(text)):
        yield found[1], text.count("\n", 0, found.start()) + 1


def anchors(text):
    """What a link may end in: the headings as a reader's page names them."""
    found = set()
    for heading in re.findall(r"^#+ (.*)$", without_blocks(text), re.M):
        words = re.sub(r"[^\w\- ]", "", heading.lower())
        found.add(words.replace(" ", "-"))
    return found


def wide_lines(text, most):
    """Lines of prose that are longer; rows of tables, pictures and blocks may be."""
    for number, line in enumerate(without_blocks(text).split("\n"), 1):
        if len(line) > most and not line.lstrip().startswith(("|", "![", "<")) and " " in line.strip():
            yield number, len(line)


def wrapped(text, most):
    """The text with the paragraphs wrapped that have a line which is too wide; no word changes."""
    lines = text.split("\n")
    wide = {number for number, _ in wide_lines(text, most)}
    for paragraph in reversed(list(paragraphs(text))):
        count = paragraph.text.count("\n") + 1
        if wide.intersection(range(paragraph.line, paragraph.line + count)) and not paragraph.text.startswith("#"):
            lines[paragraph.line - 1 : paragraph.line - 1 + count] = filled(paragraph.text, most)
    return "\n".join(lines)


def filled(text, most):
    """The lines of a paragraph. What stands in backticks is not broken, and no line begins as a list does."""
    mark = re.match(r"\s*(?:- |\d+\. )?", text)[0]
    words = re.sub(r"`[^`]+`", lambda span: "\0".join(span[0].split()), text[len(mark) :])
    words = re.sub(r"\s+(?=(?:[-+*|#]|\d+\.)(?:\s|$))", "\0", words)
    return textwrap.fill(
        " ".join(words.split()),
        width=most,
        initial_indent=mark,
        subsequent_indent=" " * len(mark),
        break_long_words=False,
        break_on_hyphens=False,
    ).replace("\0", " ").split("\n")
