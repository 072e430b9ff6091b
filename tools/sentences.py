"""The sentences of a document, each with its name, its text and the hash of its text.

A name is a section and a number in it: `01 Damage 3`, `01 Demand 3.5`, `N5.2`. A heading and the bold title of a
request are no sentences; an item of a list and a row of a table are at least one each. A sentence ends at a full stop
or a question mark outside of brackets, with no small letter behind it.
"""
import dataclasses
import hashlib
import re

# Short names of sections, by the first words of their heading.
SHORT = {
    "What is kept": "Kept",
    "The questions": "Questions",
    "The group": "Group",
    "Common ground": "Common",
    "Conditions": "Acceptance",
    "Code places": "Places",
    "Forms of the Rust": "Forms",
    "Lines of call scripts": "Lines",
}
PART = re.compile(r"(?:([NA]\d+) )?\*\*(.+?)\.?\*\*\s*")
END = re.compile(r"[.?!](?=[\s)”\"']*\s+(?![a-z]))")


@dataclasses.dataclass
class Sentence:
    section: str
    number: int
    title: str
    text: str

    @property
    def name(self):
        return f"{self.section}{'.' if self.section[-1].isdigit() else ' '}{self.number}"

    @property
    def heading(self):
        """That of its section."""
        document = {"N": "02", "A": "03"}.get(self.section[0], self.section[:2])
        part = f"{self.section}: " if self.section[0] in "NA" else ""
        return f"Document {document}, {part}{self.title}"

    @property
    def hash(self):
        return hashlib.sha256(self.text.encode()).hexdigest()[:10]


def plain(text):
    """A text on one line, without the signs of bold and of code."""
    return re.sub(r"\s+", " ", text.replace("**", "").replace("`", "")).strip()


def blocks(text):
    """Paragraphs, items of lists, rows of tables and headings, each on one line."""
    lines = []
    for line in text.splitlines():
        line = re.sub(r"^>\s?", "", line)
        begins = re.match(r"(- |\d+\. |#|\|)", line) or not line.strip()
        if begins or not lines or not lines[-1] or lines[-1][0] in "#|":
            lines.append(line.strip())
        else:
            lines[-1] += " " + line.strip()
    return [line for line in lines if line and not re.fullmatch(r"[|\s:-]+", line)]


def split(text):
    """The sentences of a block: what stands in brackets ends none."""
    found, start = [], 0
    for end in END.finditer(text):
        part = text[start : end.end()]
        behind = text[end.end() :].lstrip()
        if part.count("(") > part.count(")") or behind.startswith("("):
            continue
        found.append(part)
        start = end.end()
    return [part.strip() for part in [*found, text[start:]] if part.strip(" .")]


def short(heading):
    """`Damage` of a heading `Damage (…)`."""
    for words, name in SHORT.items():
        if heading.startswith(words):
            return name
    return re.sub(r"\s*\(.*", "", heading)


def sentences(document, text):
    """All sentences of a document, which has a number as `01`."""
    found, section, title, count, rows = [], f"{document} Preface", "Preface", 0, 0
    for block in blocks(text):
        heading = re.match(r"#+ (.*)", block)
        if heading:
            if not block.startswith("# "):
                title, count, rows = plain(heading[1]), 0, 0
                section = f"{document} {short(title)}"
            continue
        part = PART.match(block)
        if part:
            title, count = part[2], 0
            section = part[1] or f"{document} {part[2]}"
            block = block[part.end() :]
        row = block.startswith("|")
        rows = rows + 1 if row else 0
        if rows == 1:
            continue
        for text in [block] if row else split(re.sub(r"^(- |\d+\. )", "", block)):
            count += 1
            found.append(Sentence(section, count, title, plain(text.strip("| "))))
    return found
