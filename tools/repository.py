"""What the repository has that docs/TRACE.md may name: definitions, functions, theorems, mistakes and tests."""
import pathlib
import re

import believed
import calls
from nearness import Nearness
from quotations import quotations

ROOT = pathlib.Path(__file__).resolve().parent.parent
# Scripts whose answers the gate compares; those of examples/ are played by a person.
RECORDED = ("answers", "layers", "displays", "sheets")
# Lines of call scripts whose word is not the name of the call.
WORDS = {"move": "move_window", "pieces": "not_intersect", "scanline": "scanline_rgn", "look-fit": "look"}
DEFINED = re.compile(r"(?:(?:pub|abbrev|unfoldable) )*(?:record |data )?(\S+)(?= [:({])")
LEMMA = re.compile(r"^(?:pub )?([\w<>≤≡+-]+) :", re.M)
TYPE = re.compile(r"^\s*(?:pub )?(?:struct|enum|const) (\w+)", re.M)


def read_files(root=ROOT):
    """All that is read, by path."""
    kept = believed.read_files(root)
    globs = "mistakes/*/*.edit", "crates/*/must-fail/*.edit", "examples/*.calls", "compare/*.calls", "docs/*.md"
    paths = [path for pattern in globs for path in root.glob(pattern)]
    return kept | {str(path.relative_to(root)): path.read_text() for path in paths}


def line_at(text, at):
    return text.count("\n", 0, at) + 1


class Repository:
    def __init__(self, files, root=ROOT):
        self.files, self.root, self.quoted = files, root, {}
        self.specs = believed.Specs(files)
        self.lines = {file: self.defined(file) for file in self.specs.files}
        self.crates = self.read_crates()
        self.functions = {self.path(f): f for read in self.crates for f in read.functions}
        self.public = {self.path(f) for f in calls.public_calls(self.crates)}
        # With those of the programs whose contracts are promised too.
        self.promised = {self.path(f) for f in believed.contracts(files)[0]}
        self.exported = {name for name, f in self.functions.items() if f.exported}
        self.promises = believed.promises(files, self.specs)
        self.lemmas = self.read_lemmas()
        self.types = self.read_types()
        self.mistakes = dict(self.read_mistakes())
        self.nearness = Nearness(self.specs, files, self.lines, self.promises)
        self.near = {name: self.contract_near(f) for name, f in self.functions.items()}
        self.theorems = {theorem: self.nearness.of_statement(found) for found, theorem in self.promises.items()}
        self.scripts = {path: self.called(text) for path, text in files.items() if path.endswith(".calls")}

    # What there is ---------------------------------------------------------------------------------------------------

    def defined(self, file):
        """The definitions of a spec file by the line that each begins at."""
        found, spec = {}, self.specs.files[file]
        for number, line in enumerate(self.files[f"crates/{file}"].splitlines(), 1):
            name = DEFINED.match(line)
            if name and name[1] in spec.definitions and name[1] not in found.values():
                found[number] = name[1]
        return found

    def read_crates(self):
        code = [pair for pair in self.files.items() if pair[0].endswith(".rt")]
        listed = re.findall(r"^(\w+)(?: staticlib)?:", self.files["crates.txt"], re.M)
        return [calls.crate(n, tuple(p for p in code if p[0].startswith(f"crates/{n}/"))) for n in listed]

    @staticmethod
    def path(function):
        """`windows::inner::one::show`, `windows::Session::show`."""
        module = function.module
        inside = () if function.owner or function.exported else module.path
        return "::".join([module.crate, *inside, *filter(None, [function.owner]), function.name])

    def read_lemmas(self):
        """Where each name that a file of proofs declares stands."""
        found = {}
        for path, text in self.files.items():
            if "/proofs/" in path:
                for lemma in LEMMA.finditer(text):
                    found.setdefault(lemma[1], []).append((path, line_at(text, lemma.start())))
        return found

    def statement_of(self, theorem):
        """The file of proofs in which a promise is proved; "" of what is none."""
        for path, text in self.files.items():
            if "/proofs/" in path and theorem in self.theorems:
                if any(theorem == name for name, _ in believed.theorems_of(text)[0]):
                    return path
        return ""

    def read_types(self):
        """The structs, enums and constants of the code, as `window::WinId`."""
        found = {}
        for path, text in self.files.items():
            if path.endswith(".rt"):
                for declared in TYPE.finditer(text):
                    place = (path, line_at(text, declared.start(1)))
                    found[f"{path.split('/')[1]}::{declared[1]}"] = place
        return found

    def read_mistakes(self):
        """Each mistake as CRATE/NAME with its file and the places that it edits."""
        for path, text in sorted(self.files.items()):
            if path.endswith(".edit"):
                parts = path.split("/")
                crate, name = (parts[1], parts[-1].removesuffix(".edit"))
                places, file = [], ""
                for line in text.splitlines():
                    key, _, words = line.partition(": ")
                    if key == "file":
                        file = f"crates/{crate}/{words}"
                    elif key == "old" and words in self.files.get(file, ""):
                        places.append((file, line_at(self.files[file], self.files[file].index(words))))
                kept = f"{crate}/must-fail/{name}" if "must-fail" in parts else f"{crate}/{name}"
                yield kept, (path, places)

    def quotations_of(self, file):
        """Those of a spec file, read once."""
        if file not in self.quoted:
            self.quoted[file] = list(quotations(f"crates/{file}", self.files[f"crates/{file}"], self.lines[file]))
        return self.quoted[file]

    def contract_near(self, function):
        ghosts = next(read.ghosts for read in self.crates if read.name == function.module.crate)
        roots = set(believed.contract_cites(self.specs, function, ghosts.get(function.module.file, [])))
        return self.nearness.of_contract(roots, {word for clause in function.ensures for word in clause})

    # Tests ------------------------------------------------------------------------------------------------------------

    def script_words(self):
        """Which call a line of a script makes, by its first word."""
        names = {f.name for name, f in self.functions.items() if name in self.public}
        found = dict(WORDS)
        for line in self.files["docs/CALL-SCRIPT.md"].splitlines():
            cells = [cell.strip() for cell in line.strip("|").split("|")]
            if line.startswith("| `"):
                means = re.match(r"[\w_]+", cells[1])
                for word in re.findall(r"`([a-z-]+)[^`]*`", cells[0]):
                    same = word.replace("-", "_")
                    found.setdefault(word, same if same in names else means[0] if means and means[0] in names else "")
        return found

    def called(self, text):
        """How many lines of a script make each call."""
        if not hasattr(self, "meanings"):
            self.meanings = self.script_words()
        count = {}
        for line in text.splitlines():
            call = self.meanings.get(line.partition(" ")[0], "")
            count[call] = count.get(call, 0) + 1
        return count

    def broadest(self):
        """The recorded script that makes most calls of all kinds."""
        return max((len(count), path) for path, count in self.scripts.items() if is_recorded(path))[1]

    def scripts_of(self, call):
        """The recorded script that has most lines of a call, and the one of examples/ that has the greatest share."""
        recorded = [(count[call], path) for path, count in self.scripts.items() if call in count and is_recorded(path)]
        played = [
            (count[call] / sum(count.values()), path)
            for path, count in self.scripts.items()
            if call in count and path.startswith("examples/")
        ]
        return [max(found)[1] for found in (recorded, played) if found]


def is_recorded(path):
    return path in {f"compare/{name}.calls" for name in RECORDED}
