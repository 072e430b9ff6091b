"""What docs/CALL-SCRIPT.md says: the question of each answer, and what a line of a script does."""
import pathlib
import re
import textwrap

PAGE = pathlib.Path(__file__).resolve().parent.parent / "docs/CALL-SCRIPT.md"


def questions(page):
    """The words of each question, by its number as it is written."""
    return dict(re.findall(r"^\| (\d+) \| (.*) \|$", page, re.M))


def rows(page):
    """The lines, what each calls (a sentence that may be missing) and what is written."""
    cells = [row.split(" | ") for row in re.findall(r"^\| (`[a-z].*) \|$", page, re.M)]
    return [(re.findall(r"`([^`]+)`", first), *rest) for first, *rest in cells]


def all_lines(table):
    """Every line, several beside each other, none of them broken."""
    whole = "; ".join(line.replace(" ", "\N{NO-BREAK SPACE}") for names, *_ in table for line in names)
    return textwrap.fill(whole, 100, break_on_hyphens=False).replace("\N{NO-BREAK SPACE}", " ")


def help_on(page, word):
    """What is said to `help`, or to `help WORD`."""
    table = rows(page)
    if not word:
        return all_lines(table) + "\nhelp WORD says what a line does; Ctrl-D ends"
    for names, *rest in table:
        if word in (line.split()[0] for line in names):
            said = [" or ".join(names), *(f"called: {text}" for text in rest[:-1]), f"written: {rest[-1]}"]
            return "\n".join(textwrap.fill(text.replace("`", ""), 100) for text in said)
    return f"there is no line {word}; help lists them"
