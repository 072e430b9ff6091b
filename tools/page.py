"""Writes target/trace.html: each sentence with a link for every name, whose source a click shows."""
import html
import json
import pathlib
import re

from rows import KINDS

TEMPLATE = pathlib.Path(__file__).with_name("page.html")
COLUMNS = ("definition", "proof", "code", "test", "refused mistake")
# So many lines of a source are shown at most.
LONGEST = 60


class Page:
    def __init__(self, matrix, rows):
        self.matrix, self.rows, self.sources = matrix, rows, {}
        self.sentences = {one.name: one for one in matrix.sentences}

    def text(self):
        sections, body, last = [], [], ""
        for row in self.rows:
            sentence = self.sentences[row.name]
            if sentence.section != last:
                place, title = anchor(sentence.section), html.escape(sentence.heading)
                body.append("</section>" * bool(last) + f'<section id="{place}"><h2>{title}</h2>')
                sections.append(f'<a href="#{place}">{html.escape(sentence.section)}</a>')
                last = sentence.section
            body.append(self.article(row, sentence))
        body.append("</section>")
        kinds = [f'<button type="button" data-kind="{kind}">{kind}</button>' for kind in KINDS]
        calls, mistakes = len(self.matrix.repository.exported), len(self.matrix.repository.mistakes)
        summary = f"{len(self.rows)} sentences, {calls} exported calls, {mistakes} refused mistakes"
        # A `<` would end the script.
        sources = json.dumps(self.sources, ensure_ascii=False).replace("<", "\\u003c")
        parts = {"summary": summary, "kinds": " ".join(kinds), "sections": " ".join(sections)}
        parts |= {"body": "\n".join(body), "sources": sources}
        return re.sub(r"@(\w+)@", lambda found: parts[found[1]], TEMPLATE.read_text())

    def article(self, row, sentence):
        named = self.matrix.worker.named(row)
        stated = [link.name for link in named if link.sort == "definition"]
        documents = [link.name for link in named if link.sort == "document"]
        cells = [stated, *(row.all[head] for head in ("proof", "code", "test", "refused"))]
        filled = "".join(self.cell(head, names) for head, names in zip(COLUMNS, cells))
        why = self.why(row, documents)
        lacks = [name for name in self.matrix.found_missing if name.startswith(f"{row.name} (")]
        missing = "".join(f'<p class="missing">missing: {html.escape(name)}</p>' for name in lacks)
        return (
            f'<article id="{anchor(row.name)}" data-kind="{row.kind}"><div class="top">'
            f'<a class="name" href="#{anchor(row.name)}">{html.escape(row.name)}</a>'
            f'<span class="about">{html.escape(row.about)}</span><span class="kind">{row.kind}</span></div>'
            f'<p class="text">{html.escape(sentence.text)}</p>{why}{missing}'
            + (f'<div class="cells">{filled}</div>' if any(cells) else "")
            + "</article>"
        )

    def why(self, row, documents):
        """What is said by hand behind the links, with the documents that are named."""
        words = re.split(r"`([^`]+)`", re.sub(r"^(?:`[^`]+`,? ?)+", "", row.hand))
        text = "".join(self.link(word) if at % 2 else html.escape(word) for at, word in enumerate(words))
        links = " ".join(self.link(name) for name in documents if name not in words)
        return f'<p class="why">{text} {links}</p>' if text or links else ""

    def cell(self, head, names):
        if not names:
            return "<div></div>"
        items = "".join(f"<li>{self.link(name)}</li>" for name in names)
        more = f"{len(names) - 4} more" if len(names) > 4 else ""
        button = f'<button type="button" class="more" data-more="{more}">{more}</button>' if more else ""
        return f'<div><h3>{head}</h3><ul class="fold">{items}</ul>{button}</div>'

    def link(self, name):
        found = self.matrix.links.all(name)
        if not found:
            return html.escape(name)
        place = found[0]
        where = f"{place.path}, line {place.line}" if place.line else place.path
        key = f"{place.path}:{place.line}"
        if key not in self.sources:
            self.sources[key] = self.source(place)
        return (
            f'<a href="../{html.escape(place.path)}" title="{html.escape(where)}" data-at="{html.escape(key)}">'
            f"{html.escape(name)}</a>"
        )

    def source(self, place):
        """The comment above and the lines up to the next definition; all of a mistake and of a short file."""
        text = self.matrix.files.get(place.path) or (self.matrix.repository.root / place.path).read_text()
        lines = text.splitlines()
        if not place.line:
            return "\n".join(lines[:LONGEST]) + ("\n…" if len(lines) > LONGEST else "")
        start = place.line - 1
        while start > 0 and re.match(r"\s*(--|//|#\[)", lines[start - 1]):
            start -= 1
        end, depth = place.line, indent(lines[place.line - 1])
        while end < len(lines) and (lines[end - 1].strip() or indent(lines[end]) > depth):
            end += 1
        shown = lines[start:end]
        return "\n".join(shown[:LONGEST]).rstrip() + ("\n…" if len(shown) > LONGEST else "")


def indent(line):
    return len(line) - len(line.lstrip())


def anchor(name):
    return re.sub(r"\W+", "-", name)


def write(path, matrix, rows):
    path.parent.mkdir(exist_ok=True)
    path.write_text(Page(matrix, rows).text())
