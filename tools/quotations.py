"""The quotations of the documents in the comments of spec files, each with the definition that it stands beside.

A quotation is what stands in double quotes in a comment. `…` and a bracket `[…]` divide it into parts, and each part
has to be in a document to the letter; line breaks, signs of code, kinds of quotes and capital letters do not count.
Where several sentences have a part, it belongs to the one whose section is quoted beside the same definition, or else
nearest in the same file. A whole sentence that stands in several sections, which nothing tells apart, is all of them.
A part of a few letters, as `an`, points at no sentence.
"""
import bisect
import dataclasses
import re

from sentences import plain

COMMENT = re.compile(r"^(\s*)(?:--|//[/!]?)(?=[\s-]|$)\s?(.*)$")
QUOTED = re.compile(r'"([^"]+)"')
FEW = 5


@dataclasses.dataclass
class Quotation:
    file: str
    line: int
    # The definition that it stands beside; "" at the head of a file.
    beside: str
    text: str

    def parts(self):
        found = [part.strip(" .,;:?") for part in re.split(r"…|\[[^\]]*\]", flat(self.text))]
        return [part for part in found if len(part) > 1]


def flat(text):
    """As texts are compared."""
    return plain(text).replace("'", '"').replace("’", '"').lower()


def comments(text):
    """Blocks of comment lines: the line of the first, whether they are indented, the text, and the line behind."""
    block, start, deep = [], 0, False
    for number, line in enumerate([*text.splitlines(), ""], 1):
        found = COMMENT.match(line)
        if found:
            if not block:
                start, deep = number, bool(found[1])
            block.append(found[2])
        elif block:
            yield start, deep, " ".join(block), number
            block = []


def quotations(file, text, definitions):
    """Those of one file; `definitions` are its names by the line that each begins at."""
    lines = sorted(definitions)
    for start, deep, words, behind in comments(text):
        at = bisect.bisect_right(lines, start if deep else behind) - 1
        beside = definitions[lines[at]] if at >= 0 and (deep or lines[at] == behind) else ""
        for quoted in QUOTED.findall(words):
            yield Quotation(file, start, beside, quoted)


class Documents:
    """Texts that may be quoted: the sentences of the documents, and other texts as a whole."""

    def __init__(self, found, others):
        self.sentences, self.others = found, [flat(text) for text in others]
        self.starts, texts, at = [], [], 0
        for sentence in found:
            self.starts.append(at)
            texts.append(flat(sentence.text))
            at += len(texts[-1]) + 1
        self.text = " ".join(texts)

    def having(self, part):
        """For each place of a part the sentences that it lies in."""
        found, at = [], self.text.find(part)
        while at >= 0:
            first, last = (bisect.bisect_right(self.starts, place) - 1 for place in (at, at + len(part) - 1))
            found.append(self.sentences[first : last + 1])
            at = self.text.find(part, at + 1)
        return found

    def elsewhere(self, part):
        return any(part in text for text in self.others)


def traced(documents, found):
    """The quotations of one file with their sentences, and the parts that are in no document."""
    places = [[documents.having(part) for part in quotation.parts()] for quotation in found]
    sure = []
    for quotation, parts in zip(found, places):
        sure += [(quotation, part[0][0].section) for part in parts if len(part) == 1]
    hits, wrong = [], []
    for quotation, parts in zip(found, places):
        for part, words in zip(parts, quotation.parts()):
            if part and len(words) > FEW:
                hits += [(quotation, sentence) for sentence in nearest(quotation, words, part, sure)]
            elif not part and not documents.elsewhere(words):
                wrong.append((quotation, words))
    return hits, wrong


def nearest(quotation, words, places, sure):
    """The sentences of the places whose section is quoted beside the same definition, or else nearest in the file."""

    def rank(sentences):
        away = [
            (other.beside != quotation.beside, abs(other.line - quotation.line))
            for other, section in sure
            if section == sentences[0].section
        ]
        return min(away, default=(True, 10**6))

    best = min(places, key=rank)
    texts = [one.text for one in best]
    alike = [place for place in places if rank(place) == rank(best) and [one.text for one in place] == texts]
    whole = len(best) == 1 and len(flat(best[0].text)) - len(words) < 2
    return [sentence for place in (alike if whole else [best]) for sentence in place]
