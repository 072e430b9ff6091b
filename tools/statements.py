"""What must be believed, now and in another tree: the definitions in the files of specs/ that are reached, and the public
contracts. Two trees that differ only in names, comments and the places of files are equal here."""
import difflib
import pathlib
import re
import sys

import believed
from specs import words_in

NAME = re.compile(r"[^\s.()]+")


def renaming(words, path):
    """What becomes of a word of then in this file."""
    names = {}
    for word in words:
        where, _, pair = word.rpartition(":")
        if where in path:
            old, _, new = pair.partition("=")
            names[old] = new
    return lambda text: NAME.sub(lambda found: names.get(found[0], found[0]), text)


def statement(text, renamed):
    """A file without comments and `use` lines."""
    kept = [line for line in text.splitlines() if not re.match(r"\s*(pub )?(use|mod) |\s*--", line)]
    return [renamed(word) for word in words_in("\n".join(kept))]


def believed_files(files, words):
    """The files that are reached, each as its words. The path of a file is no part of what it says."""
    belief = believed.Belief(files)
    paths = sorted({f"crates/{file}" for file, _ in belief.reached})
    return {path: statement(files[path], renaming(words, path)) for path in paths}


def contracts(files, words):
    """Each public contract as its words, by the name of its function."""
    found = {}
    for function in believed.contracts(files)[0]:
        renamed = renaming(words, function.module.file)
        clauses = function.requires + function.ensures
        found[renamed(function.full)] = [renamed(word) for clause in clauses for word in clause]
    return found


def difference(then, now):
    """The first words that differ, with some before them."""
    for tag, a, b, c, d in difflib.SequenceMatcher(None, then, now, False).get_opcodes():
        if tag != "equal":
            before = " ".join(then[max(a - 6, 0) : a])
            return f"behind “{before}”: “{' '.join(then[a : b + 3])}” was, “{' '.join(now[c : d + 3])}” is"


def compare(then, now):
    """What differs. A file of then that has no equal is compared with the one of its name, wherever it lies."""
    left = {path: words for path, words in now.items() if words not in then.values()}
    for path, words in then.items():
        if words not in now.values():
            near = [other for other in left if pathlib.Path(other).name == pathlib.Path(path).name]
            said = difference(words, left[near[0]]) if near else "it is not there any more"
            left.pop(near[0], None) if near else None
            yield f"{path}: {said}"
    for path in left:
        yield f"{path}: it is new"


def main(words):
    root, names = pathlib.Path(words[0]), words[1:]
    old, new = believed.read_files(root.resolve()), believed.read_files()
    wrong = []
    for read in (believed_files, contracts):
        then, now = read(old, names), read(new, [])
        wrong += compare(then, now)
        kind = "files of specs/ that must be believed" if read is believed_files else "public contracts"
        print(f"{len(now)} {kind}, and {len(then)} then")
    print("\n".join(wrong) or "they say the same")
    sys.exit(1 if wrong else 0)


if __name__ == "__main__":
    main(sys.argv[1:])
