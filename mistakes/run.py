"""run.py [--places] [CRATE | CRATE/NAME]…: what mistakes/run does."""
import collections
import concurrent.futures
import os
import pathlib
import re
import shutil
import signal
import subprocess
import sys
import tempfile

SAID = pathlib.Path("target/mistakes.txt")
NOT_TRIED = "NOT TRIED"
# A place that was refused: a file and a line, and where it is a file of antt the declaration.
PLACE = re.compile(r"(?:\./)?((?:src|specs|proofs)/\S+?):(\d+):\d+:(?: error: `([^`]+)`)?")
FUNCTION = re.compile(r"^\s*(?:pub(?:\([^)]*\))? )?(?:const |extern \"C\" )*fn (\w+)")


def stop(why):
    print(f"mistakes/run: {why}", file=sys.stderr)
    sys.exit(2)


def named(words):
    """The mistakes that the words name, or all, as CRATE/NAME."""
    found = []
    for word in [word.rstrip("/") for word in words] or sorted(os.listdir("mistakes")):
        path = pathlib.Path("mistakes", word)
        if path.with_name(f"{path.name}.edit").is_file():
            found.append(word)
        elif word and path.is_dir() and "/" not in word:
            found += [f"{word}/{edit.stem}" for edit in path.glob("*.edit")]
        elif words:
            stop(f"a word is CRATE or CRATE/NAME, of mistakes/CRATE/NAME.edit, and not '{word}'")
    for mistake in found:
        if not os.path.isdir(f"crates/{mistake.split('/')[0]}"):
            stop(f"there is no crate for mistakes/{mistake}.edit")
    return sorted(set(found))


def text_of(mistake):
    return pathlib.Path("mistakes", f"{mistake}.edit").read_text(encoding="utf-8")


def wanted(mistake):
    """The functions and lemmas that must be refused."""
    return re.findall(r"^refused: (\S+)$", text_of(mistake), re.M)


def copied(top, kept=False):
    """The crates in a folder of their own, without what `rt` made, or with it; must-fail/ stays behind."""
    passed = {"must-fail"} if kept else {"must-fail", "out"}
    leave = lambda at, names: passed.intersection(names) if pathlib.Path(at).parent.name == "crates" else ()
    shutil.copytree("crates", top / "crates", ignore=leave, copy_function=linked if kept else shutil.copy2)
    for name in ("crates.txt", "HANDLES"):
        if os.path.isfile(name):
            shutil.copy2(name, top)


def linked(one, other):
    """What was checked is linked: `rt` puts a new file for such a one and writes into none. All else is copied."""
    if one.endswith(".oantt") or "/out/rlib/" in one:
        os.link(one, other)
    else:
        shutil.copy2(one, other)


def function_at(path, line):
    """The function that a line of a source file belongs to: the last that begins above it, or the first below clauses."""
    lines = path.read_text(encoding="utf-8").split("\n")
    above = [found[1] for found in map(FUNCTION.match, lines[:line]) if found]
    return above[-1] if above else ""


def place_of(crate, line):
    """The function or the lemma that a line of `rt` is about, if it names a place; a function by its own name alone."""
    found = PLACE.search(line)
    if not found:
        return ""
    path = pathlib.Path(found[1])
    if path.suffix == ".rt":
        return function_at(pathlib.Path("crates", crate, path), int(found[2]))
    if path.stem in ("Answers", "Invariants", "Proof") and path.parts[0] == "proofs":
        return path.parent.name.lstrip("+")
    return found[3] or ""


def is_at(name, places):
    """Whether a function, as `due::Due::owing`, or a lemma is among them."""
    return name.split("::")[-1] in places


def by_ci(mistakes, words):
    """Has `rt ci` try them, and returns its status and what it said of each."""
    with tempfile.TemporaryDirectory() as room:
        top = pathlib.Path(room, "tree")
        top.mkdir()
        copied(top)
        for mistake in mistakes:
            folder = top / "crates" / mistake.split("/")[0] / "must-fail"
            folder.mkdir(exist_ok=True)
            shutil.copy2(f"mistakes/{mistake}.edit", folder)
        crates = sorted({mistake.split("/")[0] for mistake in mistakes}) if words else []
        SAID.parent.mkdir(exist_ok=True)
        with open(SAID, "w") as said:
            status = subprocess.run(["rt", "ci", *crates], cwd=top, stdin=subprocess.DEVNULL, stdout=said, stderr=said).returncode
    found = re.findall(r"^rt: must-fail (\w+/[\w-]+)\.edit: (.*)$", SAID.read_text(errors="replace"), re.M)
    return status, dict(found)


def tried(mistakes, words):
    status, said = by_ci(mistakes, words)
    counts, elsewhere = collections.Counter(), 0
    for mistake in mistakes:
        verdict = said.get(mistake, f"{NOT_TRIED}: its crate is not proved")
        kind = "refused" if verdict.startswith("refused") else "passed" if verdict.startswith("NOT REFUSED") else "other"
        counts[kind] += 1
        names, place = wanted(mistake), place_of(mistake.split("/")[0], verdict)
        if kind == "refused" and place:
            verdict = f"refused at {place}"
            elsewhere += bool(names) and not any(is_at(name, {place}) for name in names)
        print(f"{mistake}: {verdict}")
    if status or counts["other"]:
        print("\n".join(SAID.read_text(errors="replace").split("\n")[-4:]))
        print(f"{SAID} has all that rt ci said")
    if elsewhere:
        print(f"{elsewhere} are refused first at another place than their line `refused:` names: --places looks at all places")
    print(f"{counts['refused']} mistakes refused, {counts['passed']} passed")
    return status or counts["refused"] != len(mistakes)


def edited(folder, mistake):
    """Makes the edit in a crate's folder; a text that does not stand there once is left to `rt ci` to refuse."""
    path = old = ""
    for line in text_of(mistake).split("\n"):
        key, _, rest = line.partition(": ")
        if key == "file":
            path = folder / rest
        elif key == "old":
            old = rest
        elif line.startswith("new:"):
            text = path.read_text(encoding="utf-8")
            path.unlink()
            path.write_text(text.replace(old, rest, 1), encoding="utf-8")


def looked_at(mistake):
    """Which of the places that the edit names are not refused, by `rt check` in a copy, and how many were."""
    crate = mistake.split("/")[0]
    with tempfile.TemporaryDirectory() as room:
        top = pathlib.Path(room, "tree")
        top.mkdir()
        copied(top, kept=True)
        edited(top / "crates" / crate, mistake)
        ran = subprocess.run(
            ["rt", "check", "--jobs", "1"],
            cwd=top / "crates" / crate,
            stdin=subprocess.DEVNULL,
            stdout=subprocess.PIPE,
            stderr=subprocess.STDOUT,
            text=True,
            errors="replace",
        )
    places = collections.Counter()
    for line in ran.stdout.split("\n"):
        function = re.match(r"fn (\S+): (?:not proved|no proof)", line)
        if function:
            places[function[1].split("::")[-1]] += 1
        elif re.match(r"(note: )?\S+:\d+:\d+:.*(error|not proved)", line) and "which was not admitted" not in line:
            places[place_of(crate, line)] += 1
    del places[""]
    if ran.returncode != 1 or "logic=not-proved" not in ran.stdout:
        return mistake, wanted(mistake), f"rt check ended with status {ran.returncode}, and no verdict that it is not proved"
    lacking = [name for name in wanted(mistake) if not is_at(name, places)]
    return mistake, lacking, f"refused at {', '.join(sorted(places))[:300]}"


def look(mistakes):
    with_place = [mistake for mistake in mistakes if wanted(mistake)]
    lanes = int(os.environ.get("RT_JOBS") or len(os.sched_getaffinity(0)))
    wrong = 0
    with concurrent.futures.ThreadPoolExecutor(lanes) as pool:
        for mistake, lacking, said in pool.map(looked_at, with_place):
            wrong += bool(lacking)
            print(f"{mistake}: {f'NOT at {chr(44).join(lacking)}, but ' if lacking else ''}{said}", flush=True)
    print(f"{len(with_place) - wrong} mistakes refused where they should be, {wrong} elsewhere")
    return wrong > 0


def main(words):
    # What was begun ends with this.
    signal.signal(signal.SIGTERM, lambda *_: sys.exit(1))
    places, words = "--places" in words, [word for word in words if word != "--places"]
    mistakes = named(words)
    return int(bool(look(mistakes) if places else tried(mistakes, words)))


if __name__ == "__main__":
    sys.exit(main(sys.argv[1:]))
