"""The rows of docs/TRACE.md as they are and as they should be, and what is wrong with them."""
import functools
import re

import believed
import edits
from links import Links
from nearness import CASES, WHOLE, WRITE
from quotations import Documents, traced
from repository import Repository
from rows import HEADS, KINDS, Row, Worker, listed, printed, read_rows
from sentences import sentences

TRACE, ADDITIONS, SCRIPTS = "docs/TRACE.md", "docs/ADDITIONS.md", "docs/CALL-SCRIPT.md"
DEMANDS, SCOPE, REQUESTS, OURS = "00-demands.md", "01-scope.md", "02-change-requests.md", "03-additions.md"
LANDED = re.compile(r"^Of document 03 have landed: ([^.]*)\.$", re.M)
# What is known to be missing, as `03 Lines 3 (test)`. It is printed every time; what is missing elsewhere is refused.
MISSING = re.compile(r"^Missing: (.*)\.$", re.M)
ASKED = re.compile(r"\((\d+) is ")
# Public calls that no document asks for: they say which library it is (docs/VERSIONS.md).
OF_NO_SENTENCE = {"roqshyn::roq_session_size", "roqshyn::roq_version"}


@functools.lru_cache(2)
def worker_of(files):
    """Read once for the same files: most trials of the test edit the matrix alone."""
    repository = Repository(dict(files))
    return Worker(repository, Links(repository))


class Matrix:
    def __init__(self, files, documents):
        self.files, self.documents, self.text = files, documents, files[TRACE]
        self.worker = worker_of(tuple(pair for pair in files.items() if pair[0] != TRACE))
        self.repository, self.links = self.worker.repository, self.worker.links
        self.rows = read_rows(self.text)
        self.landed = [part.strip() for part in (LANDED.findall(self.text) or [""])[0].split(",")]
        missing = (MISSING.findall(self.text) or ["nothing"])[0]
        self.missing = [] if missing == "nothing" else [part.strip() for part in missing.split(",")]
        self.wrong, self.quoted, self.found_missing = [], {}, []
        self.sentences = self.read_sentences()
        if documents:
            self.read_quotations()

    def customers(self):
        return sentences("01", self.documents[SCOPE]) + sentences("02", self.documents[REQUESTS])

    def read_sentences(self):
        """Those that have to have a row: of document 03 the parts that have landed."""
        ours = []
        for one in sentences("03", self.files[ADDITIONS]):
            if {one.section.removeprefix("03 "), one.name.removeprefix("03 ")}.intersection(self.landed):
                ours.append(one)
        return self.customers() + ours if self.documents else ours

    def read_quotations(self):
        """Which definitions quote each sentence. Titles, demands and the lines of call scripts may be quoted too."""
        ours = sentences("03", self.files[ADDITIONS])
        known = self.customers() + ours
        script = self.files[SCRIPTS].replace(" | ", ": ")
        documents = Documents(known, [self.documents.get(DEMANDS, ""), script, *{one.title for one in known}])
        for file in self.repository.lines:
            hits, wrong = traced(documents, self.repository.quotations_of(file))
            for quotation, words in wrong:
                self.wrong.append(f"{quotation.file}:{quotation.line}: no document has the words “{words}”")
            for quotation, sentence in hits:
                if quotation.beside:
                    self.quoted.setdefault(sentence.name, {})[file, quotation.beside] = None
        theirs = sentences("03", self.documents.get(OURS, self.files[ADDITIONS]))
        if [one.text for one in theirs] != [one.text for one in ours]:
            self.wrong.append(f"{ADDITIONS}: it is not document 03 any more")

    # What rows should be ----------------------------------------------------------------------------------------------

    def mistakes(self, rows):
        """What each mistake is about, by the definitions of these rows; one that is named by hand is nowhere else."""
        named = [link for row in rows for link in self.worker.named(row)]
        about = edits.about(self.repository, {link.key for link in named if link.sort == "definition"})
        return about | {link.key: set() for link in named if link.sort == "mistake"}

    def kept(self, sentence):
        """The row of a sentence: what is kept by hand goes with the hash, or else with the name."""
        same = [row for row in self.rows if row.hash == sentence.hash]
        named = [row for row in self.rows if row.name == sentence.name]
        return (same if len(same) == 1 else named or [Row(sentence.name)])[0]

    def renewed(self):
        """The rows as they should be. Without the documents what quotes a sentence is left as it is."""
        rows = {} if self.documents else {row.name: row.by_hand_only() for row in self.rows}
        for sentence in self.sentences:
            old = self.kept(sentence)
            quoted = old.quoted
            if self.documents:
                quoted = tuple(sorted(map(self.links.of_definition, self.quoted.get(sentence.name, ()))))
            kind = old.kind or ("rule" if quoted else "")
            rows[sentence.name] = Row(
                sentence.name, sentence.hash, old.about, kind, old.hand, quoted, section=sentence.heading
            )
        mistakes = self.mistakes(rows.values())
        for row in rows.values():
            row.all = self.worker.full(row, mistakes)
            row.cells = {head: listed(names) for head, names in row.all.items()}
        return list(rows.values())

    def write(self):
        """The text with the tables made anew, a table for each section."""
        parts, last = [self.text.partition("\n## ")[0].rstrip()], ""
        for row in self.renewed():
            if row.section != last:
                parts.append(f"\n## {row.section}\n\n| {' | '.join(HEADS)} |\n{'|---' * len(HEADS)}|")
                last = row.section
            parts.append(printed(row))
        return "\n".join(parts) + "\n"

    # What is wrong ----------------------------------------------------------------------------------------------------

    def check(self):
        """The rows as they should be; `wrong` has what is wrong."""
        rows, old = self.renewed(), {row.name: row for row in self.rows}
        names = [row.name for row in self.rows]
        self.wrong += [f"{TRACE}: {name} has two rows" for name in old if names.count(name) > 1]
        sections = {one.section for one in self.sentences}
        for name in old:
            if self.documents or section_of(name) in sections or name[:2] == "03" or name[0] == "A":
                if name not in {one.name for one in self.sentences}:
                    self.wrong.append(f"{TRACE}:{old[name].line}: {name} is no sentence of the documents")
        for row in rows:
            if row.name not in old:
                self.wrong.append(f"{TRACE}: {row.name} has no row")
                continue
            for text in self.wrong_row(row, old[row.name]):
                self.wrong.append(f"{TRACE}:{old[row.name].line}: {row.name}: {text}")
        self.wrong += self.without_sentence(rows)
        for file, name in [one for one in (*CASES, *WHOLE, WRITE) if one not in self.repository.nearness.cited]:
            self.wrong.append(f"tools/nearness.py: crates/{file} does not define {name} any more")
        for name in [name for name in self.missing if name not in self.found_missing]:
            self.wrong.append(f"{TRACE}: {name} is named as missing, and is not")
        return rows

    def wrong_row(self, row, old):
        for name in dict.fromkeys([*old.quoted, *old.by_hand()]):
            found = self.links.all(name)
            if len(found) != 1:
                yield f"`{name}` {'stands for more than one thing' if found else 'is not there'}"
        if row.hash != old.hash:
            yield "the sentence has changed: read it, and what is kept by hand"
        if row.quoted != old.quoted:
            yield "the cell `quoted by` is stale"
        for head in HEADS[6:]:
            if row.cells[head] != old.cells[head]:
                yield f"the cell `{head}` is stale"
        if not row.about:
            yield "no words say what it is about"
        if row.kind not in KINDS:
            yield f"its kind is none of {', '.join(KINDS)}"
        for need in KINDS.get(row.kind, ()):
            if need == "why" and not row.why():
                yield f"no word says why it is {row.kind}"
            elif need != "why" and not row.all[need]:
                self.found_missing.append(f"{row.name} ({need})")
                if self.found_missing[-1] not in self.missing:
                    yield f"it is a {row.kind}, and has no {need}"

    def without_sentence(self, rows):
        """Public calls, questions and mistakes that belong to no sentence."""
        proofs, refused = ({name for row in rows for name in row.all[head]} for head in ("proof", "refused"))
        unsaid = self.repository.public - proofs
        for name in sorted(unsaid - OF_NO_SENTENCE):
            yield f"{name}: no sentence in {TRACE} has this call"
        for name in sorted(OF_NO_SENTENCE - unsaid):
            yield f"{name}: it is no public call, or a sentence in {TRACE} has it"
        for name in sorted(set(self.repository.mistakes) - refused):
            yield f"{self.repository.mistakes[name][0]}: no sentence in {TRACE} has this mistake"
        for number, askers in sorted(questions(self.repository.nearness).items()):
            heads = [row for row in rows if re.search(rf"\bquestion {number}\b", row.about)]
            named = {link.key for row in heads for link in self.worker.named(row) if link.sort == "definition"}
            if not named.intersection(askers):
                yield f"question {number}: no sentence in {TRACE} says it beside a definition that asks it"


@functools.lru_cache(2)
def questions(nearness):
    """The definitions that ask each question, and those that these cite."""
    found = {}
    for (file, name), cited in nearness.cited.items():
        body = re.sub(r"^\s*--.*$", "", nearness.bodies[file][name], flags=re.M)
        for number in [] if believed.is_example(file) else ASKED.findall(body):
            found.setdefault(int(number), set()).update({(file, name), *cited})
    return found


def section_of(name):
    return re.sub(r"[ .]\d+$", "", name)
