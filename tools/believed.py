"""believed.py [--list | --test]: sees that what must be believed lies in `specs/`, and our own in `specs/inner/`.

It starts from the public contracts, which are those of the calls that calls.py finds and of the functions that
docs/PROMISES.md has in a table headed `function`, and from the promises: the statements without arguments that a
theorem of `proofs/` has as its type. A contract reaches the definitions that its words name, and so does a definition,
by its type and its body. A local of the same name counts as well: that can only reach too much. A file of `specs/` of
which nothing is reached is refused, and so is one of `specs/inner/` of which something is.

`declared` modules, which are made from the structs of the code, are no files. A definition of OPAQUE is not opened.
With --list it says of each file what it is, and which definitions of a reached file are not reached.
"""
import functools
import pathlib
import re
import sys

import calls
from items import Unread, words_of
from specs import Scope, Spec, pieces, words_in

ROOT = pathlib.Path(__file__).resolve().parent.parent
# What nobody has to believe, whatever it says: a public function promises it without a premise (`start`,
# `Reading::fresh`), and those that ask for it promise it again. So a caller has it, and only hands it on.
OPAQUE = ("windows/specs/View.antt", "Given"), ("script/specs/Machine.antt", "Reads")
# The demands, which have to be among the promises that are found.
DEMANDS = ("Demand1", "Demand3", "ProgramDemand1", "ProgramDemand3")
# Files of examples, which show that definitions say what they should, lie beside these. Only proofs may cite them.
EXAMPLES = ("Examples", "Limits", "Station")
# Files that list modules.
LISTS = ("Lib.antt", "inner.antt")
MODULE = re.compile(r"Rattle\.(\w+)\.specs\.(?!declared\.)([\w.]+)")
# The crates of the repository; what is of another is the kit's.
OURS = {path.name for path in (ROOT / "crates").iterdir()}
THEOREM = re.compile(r"^(?:pub )?([\w-]+) : ((?:\w+\.)?\w+)$", re.M)


def file_of(module):
    """The spec file of a module; "" for one that is not ours, and for one that is made from the code."""
    found = MODULE.fullmatch(module)
    return f"{found[1]}/specs/{found[2].replace('.', '/')}.antt" if found and found[1] in OURS else ""


def is_inner(file):
    return "/specs/inner/" in file


def is_example(file):
    return pathlib.Path(file).stem in EXAMPLES


# Read once for the same text, as the test changes one file at a time.
spec_of = functools.cache(Spec)


@functools.cache
def theorems_of(text):
    """The theorems of a file of proofs whose type is one name, and what the file brings in."""
    found, scope = THEOREM.findall(text), Scope()
    for line in re.findall(r"^use (.*)$", text, re.M) if found else []:
        scope.use(words_in(line))
    return found, scope


@functools.cache
def modules_in(text):
    """The spec files that a text names."""
    return {file_of(module) for module in re.findall(r"Rattle\.[\w.]*\w", text)}


def prefixes(words):
    """What else words name: `Walk.next` names Walk, and `w.at.pos` w."""
    return {".".join(word.split(".")[:count]) for word in words for count in range(1, word.count(".") + 1)}


class Specs:
    """The spec files. A definition is a pair: its file, below `crates/`, and its name."""

    def __init__(self, files):
        self.files, self.wrong = {}, []
        for path, text in sorted(files.items()):
            if re.match(r"crates/\w+/specs/", path) and path.split("/specs/")[1] not in LISTS:
                try:
                    self.files[path.removeprefix("crates/")] = spec_of(text)
                except Unread as why:
                    self.wrong.append(f"{path}: {why}")
        self.names = {file: self.brought(spec.scope, file) | self.own(file) for file, spec in self.files.items()}

    def own(self, file):
        spec = self.files[file]
        found = {piece: (file, name) for name in spec.definitions for piece in pieces(name)}
        return found | {maker: (file, name) for maker, name in spec.makers.items()}

    def brought(self, scope, by):
        """What each name, as it is written, stands for: what is brought in, and all of a module that is named here."""
        found = {}
        for here, (module, name) in scope.names.items():
            if file_of(module):
                target = self.defined(file_of(module), name, by)
                found.update({piece: target for piece in pieces(here)})
        for here, module in scope.modules.items():
            if self.files.get(file_of(module)):
                found.update({f"{here}.{name}": target for name, target in self.own(file_of(module)).items()})
            elif file_of(module):
                self.wrong.append(f"crates/{by}: it names {module}, and there is no such file")
        return found

    def defined(self, file, name, by):
        """The definition of this name, or that of which it is a constructor."""
        spec = self.files.get(file)
        if not spec or name not in spec.definitions and name not in spec.makers:
            self.wrong.append(f"crates/{by}: it takes {name} from crates/{file}, which does not define it")
        return file, spec.makers.get(name, name) if spec else name

    def cites(self, definition):
        """What the type and the body of a definition name."""
        file, name = definition
        spec = self.files.get(file)
        words = spec.definitions[name].words if spec and name in spec.definitions else set()
        words = words | prefixes(words)
        return sorted({self.names[file][word] for word in words if word in self.names[file]})

    def reach(self, roots, opaque):
        """All that is reached, each with the one that cited it first."""
        reached = {definition: by for definition, by in roots.items() if definition not in opaque}
        waiting = list(reached)
        for definition in waiting:
            for cited in self.cites(definition):
                if cited not in reached and cited not in opaque:
                    reached[cited] = definition
                    waiting.append(cited)
        return reached


def contracts(files):
    """The functions whose contracts are public, what their files bring in, and what is wrong."""
    listed = re.findall(r"^(\w+)(?: staticlib)?:", files["crates.txt"], re.M)
    code = [pair for pair in files.items() if pair[0].endswith(".rt")]
    crates = [calls.crate(name, tuple(pair for pair in code if pair[0].startswith(f"crates/{name}/"))) for name in listed]
    found, wrong = calls.public_calls(crates), [text for read in crates for text in read.wrong]
    for number, _, cells in calls.tables(files[calls.PROMISES], "function"):
        for name in re.findall(r"`(\w+::\w+)`", cells[0]):
            named = [function for read in crates for function in read.functions if name in function.names()]
            found += named
            if len(named) != 1:
                wrong.append(f"{calls.PROMISES}:{number}: `{name}` is {'two functions' if named else 'no function'}")
    return found, {file: lines for read in crates for file, lines in read.ghosts.items()}, wrong


def contract_cites(specs, function, ghosts):
    """What a contract names. A name may be several words there, as `none` and `?`."""
    scope = Scope()
    for line in ghosts:
        scope.use(line[1:])
    clauses = function.requires + function.ensures
    for name, target in specs.brought(scope, function.module.file.removeprefix("crates/")).items():
        part = [word for word, _ in words_of(name)]
        if any(words[at : at + len(part)] == part for words in clauses for at in range(len(words))):
            yield target


def promises(files, specs):
    """The statements that are proved, each with its theorem."""
    found = {}
    for path, text in sorted(files.items()):
        theorems, scope = theorems_of(text) if "/proofs/" in path else ((), None)
        for theorem, statement in theorems:
            module, _, name = statement.rpartition(".")
            module, name = (scope.modules.get(module, ""), name) if module else scope.names.get(name, ("", name))
            spec = specs.files.get(file_of(module))
            if spec and name in spec.definitions and spec.definitions[name].closed:
                found[file_of(module), name] = theorem
    return found


def wrong_promises(found, text):
    """A demand that is not found, and a promise or a theorem that is only here, or only in docs/PROMISES.md."""
    for demand in DEMANDS:
        if demand not in {name for _, name in found}:
            yield f"{demand}: no theorem in proofs/ has it as its type"
    for file, name in sorted(found):
        if f"`{name}`" not in text:
            yield f"crates/{file}: {name} is proved, and {calls.PROMISES} does not name it"
    for theorem in re.findall(r"proved\s+as\s+`([\w-]+)`", text):
        if theorem not in found.values():
            yield f"{calls.PROMISES}: `{theorem}` proves no statement of specs/"


class Belief:
    """What is reached, and what is wrong with where it lies."""

    def __init__(self, files):
        self.specs = Specs(files)
        functions, ghosts, wrong = contracts(files)
        self.contracts, self.promises = len(functions), promises(files, self.specs)
        roots = dict(self.promises)
        for function in functions:
            for cited in contract_cites(self.specs, function, ghosts.get(function.module.file, [])):
                roots.setdefault(cited, function.full)
        self.reached = self.specs.reach(roots, OPAQUE)
        self.opaque = self.specs.reach(dict.fromkeys(OPAQUE, ""), ())
        wrong += wrong_promises(self.promises, files[calls.PROMISES])
        gone = [definition for definition in OPAQUE if not self.has(*definition)]
        wrong += [f"crates/{file}: {name} is not defined there any more" for file, name in gone]
        self.wrong = list(dict.fromkeys(self.specs.wrong + wrong + list(self.misplaced(files))))

    def has(self, file, name):
        return file in self.specs.files and name in self.specs.files[file].definitions

    def hits(self, file):
        return [name for name in self.specs.files[file].definitions if (file, name) in self.reached]

    def misplaced(self, files):
        """Files that lie on the wrong side, and examples that are none."""
        citing = {path: modules_in(text) for path, text in files.items() if "/proofs/" not in path}
        for file in self.specs.files:
            hits = self.hits(file)
            if is_example(file):
                for path in sorted(path for path in citing if file in citing[path]):
                    yield f"{path}: it cites crates/{file}, which is a file of examples"
            elif hits and is_inner(file):
                yield f"crates/{file}: it must be believed, and lies in inner: {self.chain((file, hits[0]))}"
            elif not hits and not is_inner(file):
                yield f"crates/{file}: no public contract and no promise reaches it, and it does not lie in inner"

    def chain(self, definition):
        """Who names whom, up to a theorem or a function."""
        names = [definition[1]]
        while isinstance(self.reached[definition], tuple):
            definition = self.reached[definition]
            names.append(definition[1])
        return ", from ".join([*names, self.reached[definition]])

    def listing(self):
        for file, spec in self.specs.files.items():
            hits = self.hits(file)
            rest = [name for name in spec.definitions if name not in hits]
            opaque = [name for name in rest if (file, name) in self.opaque]
            said = "examples" if is_example(file) else "believed" if hits else "our own"
            if hits and opaque:
                said += f"; not opened: {' '.join(opaque)}"
            if hits and len(rest) > len(opaque):
                said += f"; not reached: {' '.join(name for name in rest if name not in opaque)}"
            yield f"crates/{file}: {said}"


def read_files(root=ROOT):
    paths = [root / "crates.txt", root / calls.PROMISES, *root.glob("crates/*/src/**/*.rt")]
    paths += [*root.glob("crates/*/specs/**/*.antt"), *root.glob("crates/*/proofs/**/*.antt")]
    return {str(path.relative_to(root)): path.read_text() for path in paths}


def main(words):
    files = read_files()
    belief = Belief(files)
    if words == ["--list"]:
        print("\n".join(belief.listing()))
    if belief.wrong:
        print("\n".join(belief.wrong))
        sys.exit(1)
    if words == ["--test"]:
        from believed_test import refused

        print(f"{refused(files)} trees refused")
    count = f"{belief.contracts} public contracts and {len(belief.promises)} promises"
    print(f"{count} rest on {len({file for file, _ in belief.reached})} files of specs/, and on none of specs/inner/")


if __name__ == "__main__":
    main(sys.argv[1:])
