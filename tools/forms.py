"""forms.py [COMMIT] [--places]: counts, for each point of docs/DESIGN-PASS.md, the places of src/ that have an older form,
crate by crate: of the tree, or of a commit. With --places each place is listed. A count is where to look: which of the
places stay, and why, the page says."""
import collections
import pathlib
import re
import subprocess
import sys

ROOT = pathlib.Path(__file__).resolve().parent.parent
SOURCE = re.compile(r"crates/(\w+)/src/.*\.rt$")
FLAG = r"answer: (?:&mut )?u32|(?:ok|yes|done|told|due|on|meets|is_dirty|is_set|has_\w+): bool"
BY_LINE = {
    # enums to look at, a flag or an answer beside values, numbers for kinds and refusals
    1: rf"(?:pub )?enum \w+|\s+(?:pub )?(?:{FLAG}),|\s+let mut answer|(?:pub )?const [A-Z0-9_]+: u(?:8|32) = ",
    # loops that count by hand
    3: r"\s*(?:while|loop) ",
    # comparisons, copies and conversions by hand
    4: r"\s*(?:pub )?fn (?:either|both|same|least|greatest|abs_diff|minus|nearer|flag|wide|slot_of|event_of|numbers_of"
    r"|number_of|numbers|of|quarters_of)\(",
    # an array in a struct, and a slice with a count or a place beside it
    6: r"\s+(?:pub )?\w+: \[\w+; \d+\],|.*: &(?:mut )?\[\w+(?:; \d+)?\], (?:n|k|m|len|shown|place|i): usize",
    # which step to run
    7: r"\s+match (?:k|kind|\w+\.kind) \{",
}
KEYWORDS = {"if", "else", "while", "return", "let", "mut", "match", "for", "in", "true", "false", "as", "self", "Ok", "Err",
            "Some", "None"}
FUNCTION = re.compile(r'^( *)(?:pub )?(?:extern "C" )?fn (\w+)(.*?)^\1\{\n(.*?)^\1\}', re.M | re.S)


def files_of(commit):
    if commit is None:
        return {str(p.relative_to(ROOT)): p.read_text() for p in sorted(ROOT.glob("crates/*/src/**/*.rt"))}
    names = subprocess.run(["git", "-C", ROOT, "ls-tree", "-r", "--name-only", commit], capture_output=True, text=True,
                           check=True).stdout.split()
    return {name: subprocess.run(["git", "-C", ROOT, "show", f"{commit}:{name}"], capture_output=True, text=True,
                                 check=True).stdout for name in names if SOURCE.match(name)}


def shape(body):
    """A body with its names numbered: two that are alike differ in names, types and constants alone."""
    names = {}
    named = re.sub(r"\b\w+\b", lambda w: w[0] if w[0] in KEYWORDS else names.setdefault(w[0], f"v{len(names)}"), body)
    return re.sub(r"\s+", " ", named)


def functions(files):
    for name, text in files.items():
        for found in FUNCTION.finditer(re.sub(r"//.*", "", text)):
            yield name, found[2], found[3], found[4]


def twins(files):
    """Point 2."""
    alike = collections.defaultdict(list)
    for name, function, _, body in functions(files):
        if len(shape(body)) > 60:
            alike[shape(body)].append((name, function))
    return [place for places in alike.values() if len(places) > 1 for place in places]


def repeated(files):
    """Point 5: each fact that three contracts of a crate ask of an argument, and each two parameters that stand together
    in five functions of a crate. A place is such a fact or pair, with how many have it."""
    asked = collections.Counter()
    together = collections.Counter()
    for name, function, head, _ in functions(files):
        for fact in {fact for clause in re.findall(r"requires .*", head) for fact in re.findall(r"\b([A-Z]\w+) [a-z«]", clause)}:
            asked[SOURCE.match(name)[1], fact] += 1
        parameters = re.findall(r"(\w+: (?:&(?:mut )?)?[\w\[]+(?:; \d+)?\]?)", head.split("requires")[0].split("->")[0])
        for pair in zip(parameters, parameters[1:]):
            together[SOURCE.match(name)[1], ", ".join(pair)] += 1
    often = [(what, n) for what, n in asked.items() if n > 2] + [(what, n) for what, n in together.items() if n > 4]
    return [(f"crates/{crate}/src/{crate}.rt", f"{what} ({n})") for (crate, what), n in often]


def places_of(files):
    """By point: the places, each a file and what stands there."""
    found = {point: [] for point in range(1, 8)}
    for name, text in files.items():
        for number, line in enumerate(text.splitlines(), 1):
            for point, pattern in BY_LINE.items():
                if re.match(pattern, line):
                    found[point].append((name, f"{number}: {line.strip()}"))
    found[2], found[5] = twins(files), repeated(files)
    return found


def main(words):
    files = files_of(next((word for word in words if word != "--places"), None))
    for point, places in places_of(files).items():
        crates = collections.Counter(SOURCE.match(name)[1] for name, _ in places)
        print(f"{point}: {len(places)}  " + " ".join(f"{crate} {n}" for crate, n in sorted(crates.items())))
        if "--places" in words:
            for name, what in places:
                print(f"    {name}  {what}")


main(sys.argv[1:])
