"""The rows of docs/TRACE.md: what is kept by hand in them, and what is worked out.

By hand: a few words on the sentence, its kind, and links that cannot be found with a word why. Worked out: the hash,
the definitions that quote the sentence, the contracts and theorems that have these, the code, the tests, and the
mistakes that are refused.
"""
import dataclasses
import re

from nearness import nearest

HEADS = ["sentence", "hash", "about", "kind", "by hand", "quoted by", "proof", "code", "test", "refused"]
# What a row of each kind must have.
KINDS = {
    "rule": ("proof", "test"),
    "example": ("proof", "test"),
    "comparison": ("test",),
    "form": ("code",),
    "acceptance": ("test",),
    "text": ("test",),
    "landing": ("why",),
    "background": ("why",),
}
# The crates of the programs, whose functions call the library.
PROGRAMS = ("answer_text", "bare_lines", "first_program", "replay", "script")
# So many names stand in a cell; the page has all.
MOST = 5
MORE = re.compile(r" and (\d+) more$")
NAME = re.compile(r"(?:0\d [A-Z][\w ]*?(?: |\.)|[NA]\d+\.)\d+")


@dataclasses.dataclass
class Row:
    name: str
    hash: str = ""
    about: str = ""
    kind: str = ""
    hand: str = ""
    quoted: tuple = ()
    cells: dict = dataclasses.field(default_factory=dict)
    line: int = 0
    # The heading that it stands under.
    section: str = ""

    def by_hand_only(self):
        """The row without what is worked out."""
        return dataclasses.replace(self, cells={})

    def by_hand(self):
        """The names that stand there."""
        return re.findall(r"`([^`]+)`", self.hand)

    def why(self):
        return re.sub(r"`[^`]+`", "", self.hand).strip(" ,;")


def listed(names):
    """A cell of names, of which the first few are written."""
    names = list(dict.fromkeys(names))
    text = ", ".join(f"`{name}`" for name in names[:MOST])
    return text + f" and {len(names) - MOST} more" if len(names) > MOST else text


def read_rows(text):
    """The rows of the tables, in their order."""
    rows, section = [], ""
    for number, line in enumerate(text.splitlines(), 1):
        section = line.removeprefix("## ") if line.startswith("## ") else section
        cells = [cell.strip("| ") for cell in line.split("|")[1:-1]] if line.startswith("|") else []
        if len(cells) == len(HEADS) and NAME.fullmatch(cells[0]):
            quoted = tuple(re.findall(r"`([^`]+)`", cells[5]))
            rows.append(Row(*cells[:5], quoted, dict(zip(HEADS[6:], cells[6:])), number, section))
    return rows


def printed(row):
    cells = [row.name, row.hash, row.about, row.kind, row.hand, ", ".join(f"`{name}`" for name in row.quoted)]
    cells += [row.cells.get(head, "") for head in HEADS[6:]]
    return "|" + "|".join(f" {cell} " if cell else " " for cell in cells) + "|"


class Worker:
    """Works out the cells of rows."""

    def __init__(self, repository, links):
        self.repository, self.links = repository, links
        near = repository.near
        self.contracts = {name: near[name] for name in sorted(repository.promised, key=by_value_first)}
        self.inner = {name: near[name] for name in sorted(near) if is_library(name) and name not in repository.exported}

    def named(self, row):
        """The links of a row that stand for something."""
        return [link for name in [*row.quoted, *row.by_hand()] for link in self.links.all(name)[:1]]

    def full(self, row, mistakes):
        """All links of each cell, by its head."""
        named = self.named(row)
        keys = {sort: [link.key for link in named if link.sort == sort] for sort in SORTS}
        found = {"proof": [], "code": [], "test": [], "refused": []}
        data = self.repository.nearness.is_data
        for definition in [one for one in keys["definition"] if not data(one)]:
            contracts, _ = nearest(self.contracts, definition)
            found["proof"] += contracts + self.theorems(definition, contracts)
            code, away = nearest(self.inner, definition)
            found["code"] += code if away < 2 else contracts
        found["proof"] += [key for key in keys["function"] if key in self.repository.promised]
        found["proof"] += [link.name for link in named if link.sort == "theorem"]
        found["proof"] = sorted(dict.fromkeys(found["proof"]), key=by_value_first)
        if row.kind == "example":
            found["proof"] += [theorem for table in keys["table"] for theorem in self.computed(table)]
        found["code"] = keys["function"] + keys["type"] + found["code"]
        found["test"] = [self.links.of_definition(key) for key in keys["table"]] + keys["test"]
        found["test"] += self.scripts(found["proof"])
        found["refused"] = keys["mistake"] + [
            name for name, about in mistakes.items() if about.intersection(keys["definition"])
        ]
        return {head: list(dict.fromkeys(names)) for head, names in found.items()}

    def theorems(self, definition, contracts):
        """Those that name a definition; where no contract has it, those that rest on it, the demands first."""
        away = {name: near[definition] for name, near in self.repository.theorems.items() if definition in near}
        if contracts:
            return [name for name in sorted(away) if away[name] <= 1]
        return sorted(away, key=lambda name: ("demand" not in name, away[name], name))

    def computed(self, table):
        """The theorem on a table of examples."""
        file = table[0]
        cited = self.repository.nearness.cited
        citing = [one for one in self.repository.lines[file].values() if table in cited[file, one]]
        return [self.links.of_definition((file, one)) for one in citing if one.endswith("hold") or one == "holds"]

    def scripts(self, proof):
        """The scripts that make the calls of a row; of one that is about many calls the script that makes most."""
        names = [name.rpartition("::")[2] for name in proof if name in self.repository.public]
        names = list(dict.fromkeys(name.removeprefix("roq_") for name in names))
        if len(names) > MOST:
            return [self.repository.broadest()]
        return [path for name in names for path in self.repository.scripts_of(name)]


SORTS = ("definition", "table", "function", "type", "theorem", "mistake", "test", "document")


def is_library(name):
    return name.split("::")[0] not in PROGRAMS


def by_value_first(name):
    """Calls of a session, then the others, then those that are exported, then theorems, the demands first."""
    is_theorem = "::" not in name
    ours = name.startswith("roqshyn::"), not name.startswith("windows::Session")
    return (is_theorem, "demand" not in name, name) if is_theorem else (is_theorem, *ours, name)
