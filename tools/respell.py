#!/usr/bin/env python3
"""Brings the repository's own definitions and lemmas to snake case: `smallRect` and `small-rect` become `small_rect`.

usage: python3 tools/respell.py [--check] FOLDER..        at the top of the repository, with folders or files below it

It goes by the names that the files of specs/ and proofs/ declare, and leaves those that a file takes from the kit. Names
of goals and steps, which the prover makes, stay, and so do the names of src/, exported C names and strings. Where a lemma
would get the name of a definition that stands in the same file, it gets `_lem` behind it. It was run once, with crates/,
when the repository was brought to the toolchain of November 2026.
"""
import os
import re
import sys

END = r"\s(){}\[\].,;:@\"«»\\`λ∀!?"
TOKEN = rf"[^{END}]+"
WORD = re.compile(rf"(?<![^{END}])({TOKEN})")
CAMEL = re.compile(r"^[a-zα-ω][\w'₀-₉²]*[A-Z][\w'₀-₉²]*$")
HYPHEN = re.compile(r"^[a-zα-ω][\w'₀-₉²]*(-[\w'₀-₉²]+)+$")
LEMMA = set()
# Lemmas that had the new name of a definition already; the last one in one file alone.
PLAIN = {"first_on", "at_top", "sent_back", "no_call", "small_size"}
ALONE = {"crates/rules/proofs/demand/Asked.antt": {"in_use"}}
# Fields and constants, which stand behind a dot.
NO_LEMMA = {"has-list", "has-sheet", "has-target", "display-at"}

# Words of the call script, which comments quote.
SCRIPT = set(
    "lend-screen lend-list contains-rect look-fit lend-target display-at update-dims lend-sheet fill-scanline set-scanline read-sheet".split()
)


def snake(name):
    low = lambda m: "_" + m[1].lower()
    parts = [re.sub(r"(?<=[^A-Z_])([A-Z]+)", low, p) if CAMEL.match(p) else p for p in name.split("-")]
    return "_".join(parts) + ("_lem" if name in LEMMA else "")


def texts(roots, *endings):
    for root in roots:
        if os.path.isfile(root):
            yield root
        for folder, dirs, files in os.walk(root):
            dirs[:] = sorted(d for d in dirs if d not in ("out", "target", ".git"))
            for f in sorted(files):
                if f.endswith(endings):
                    yield os.path.join(folder, f)


def read(path):
    with open(path, encoding="utf-8") as f:
        return f.read()


def code(text):
    return re.sub(r"(?m)(?:^|(?<=\s))--(?:\s.*)?$", "", text)


OWN = set(os.listdir("crates"))
IMPORT = re.compile(r"^\s*(?:pub )?(?:ghost )?use\s+([A-Za-z_][^\s{;]*?)\.?(?:\{([^}]*)\}|\s|;|$)", re.M)


def from_kit(text):
    names = set()
    for m in IMPORT.finditer(text):
        parts = m[1].split(".")
        if not (parts[0] == "Rattle" and len(parts) > 1 and parts[1] in OWN) and m[2]:
            names |= {it.strip() for it in m[2].split(",") if " as " not in it}
    return names


def declared(path, text):
    names = set()
    walk = path.endswith("Proof.antt")
    text = code(text)
    head = rf"^[ \t]*(?:(?:abbrev|unfoldable|pub|private)[ \t]+)*({TOKEN}(?:[ \t]+{TOKEN})*)[ \t]*(?:[({{][^\n]*)?:[ \t\n]+(\S+)"
    for m in re.finditer(head, text, re.M):
        if not (walk and re.match(r"tie\.(Need|InvT|MT)", m[2])):
            names |= set(m[1].split())
    for m in re.finditer(rf"[({{]((?:{TOKEN}[ \t]+)*{TOKEN})[ \t]+:[ \t\n]", text):
        names |= set(m[1].split())
    for m in re.finditer(r"λ[ \t]*([^.\n(){}]*)\.", text):
        names |= set(m[1].split())
    for m in re.finditer(rf"\b(?:let|record|data|ruleset)[ \t]+({TOKEN})", text):
        names.add(m[1])
    return {n for n in names if CAMEL.match(n) or HYPHEN.match(n)}


def cut(line, antt):
    at = re.search(r"(?:^|(?<=\s))--(?=\s|$)" if antt else r"//|^#", line)
    return (line[: at.start()], line[at.start() :]) if at else (line, "")


def outside_strings(turn, text):
    """Turns what stands between strings and quotations."""
    parts = re.split(r'("(?:[^"\\\n]|\\.)*")', text)
    return "".join(p if i % 2 else turn(p) for i, p in enumerate(parts))


def turned(path, text, names, clashes=None):
    """The text with its names turned; a string that goes on over lines is put aside meanwhile."""
    aside = []

    def put(m):
        aside.append(m[0])
        return f'"{len(aside) - 1}"'

    if path.endswith(".rt"):
        text = re.sub(r'"(?:[^"\\\n]|\\.)*\\\n(?:[^"\\\n]|\\.|\\\n)*"', put, text)
    text = turned_lines(path, text, names, clashes)
    return re.sub(r'"(\d+)"', lambda m: aside[int(m[1])] if int(m[1]) < len(aside) else m[0], text) if aside else text


def turned_lines(path, text, names, clashes):
    kit = from_kit(text)
    antt = path.endswith(".antt")
    plain = PLAIN | ALONE.get(path, set()) if antt else set()
    ours = lambda w: (w in names or w in plain) and w not in kit
    lines = []
    for line in text.split("\n"):
        body, rest = cut(line, antt)
        if plain:
            body = re.sub(rf"(?<![^{END}])(?<!\.)({TOKEN})", lambda m: m[1] + "_lem" if m[1] in plain else m[1], body)
        each = lambda t: WORD.sub(lambda m: snake(m[1]) if ours(m[1]) else m[1], t)
        body = outside_strings(each, body)
        rest = outside_strings(lambda t: WORD.sub(lambda m: snake(m[1]) if ours(m[1]) and CAMEL.match(m[1]) else m[1], t), rest)
        rest = re.sub(r"`([^`]*)`", lambda m: m[0] if m[1].split()[0:1] and m[1].split()[0] in SCRIPT else "`" + each(m[1]) + "`", rest)
        lines.append(body + rest)
    if clashes is not None and antt:
        seen = set(re.findall(rf"(?<![^{END}])(?<!\.)({TOKEN})", code(text)))
        by = {}
        for w in seen:
            by.setdefault(w + "_lem" if w in plain else snake(w) if ours(w) else w, set()).add(w)
        for new, olds in by.items():
            if len(olds) > 1:
                clashes.append((path, new, sorted(olds)))
    return "\n".join(lines)


def main():
    check = "--check" in sys.argv
    roots = [a for a in sys.argv[1:] if not a.startswith("-")] or ["crates"]
    names = set()
    for path in texts(["crates"], ".antt"):
        names |= declared(path, read(path))
    for turn in range(2):
        clashes = []
        for path in texts(["crates"], ".antt"):
            turned(path, read(path), names, clashes)
        if not turn:
            for _, _, olds in clashes:
                hyphens = [o for o in olds if HYPHEN.match(o)]
                LEMMA.update(set(hyphens if len(hyphens) < len(olds) else hyphens[1:]) - NO_LEMMA)
    for path, new, olds in clashes:
        print("falls together:", path, new, olds)
    changed = 0
    for path in texts(roots, ".antt", ".rt", ".edit"):
        text = read(path)
        new = turned(path, text, names)
        if new != text:
            changed += 1
            if not check:
                with open(path, "w", encoding="utf-8") as f:
                    f.write(new)
    print(len(names), "names,", len(LEMMA), "with _lem,", changed, "files")
    if check:
        print(sorted(LEMMA))


if __name__ == "__main__":
    main()
