"""Whether what stands in backticks is there. Its form says what it is; the first form that fits counts.

command     `bash tools/calls --test`, `./play SCRIPT`, `rt check geom`, `compare/run`: a file that is run, with its
            options, or a command of the kit with its crate. Commands of others are not looked for, but their files are.
path        `crates/geom/src`, `rules/specs/Group`, `group/Steps`: from the root, from crates/ or from the document's
            folder on; or else the end of a path below a crate or folder that the paragraph names.
line        `mousedown 190 90 1`: a line of a call script, with as many numbers as its word takes.
value       `0 MouseDown 54 34 1`, `≤`, `ID X Y`: what a program writes, signs and stand-ins, which name nothing; what
            the kit prints, options of compilers, names of pixman, and what the original says where it panics.
qualified   `windows::inner::one::show`, `Rect::union`: a word of the files of that crate, module or type.
member      `Group.start`: a word of a file of that name.
words       all others: each word is one of the code, or the name of a file or folder.

Where a noun stands before the name, as in crate `geom`, it has to be such a thing. In documents on the original a name
may be the original's.
"""
import pathlib
import re

from prose import paragraphs
from tree import code_words

# Documents that speak of the original. Only there may a name be the original's.
OF_ORIGINAL = ("docs/DECISIONS.md", "docs/DIFFERENCES.md")
# What stands for any name.
STAND_INS = "CALLS CRATE DIR FUNCTION NAME PIECE PREFIX SCRIPT SEED".split()
KIT = "all check ci doc expand fmt lemma lib must-fail new plant run seed selftest test tidy try verdict version".split()
OTHERS = ("cargo", "git", "grep", "objdump", "rattle")
# What is made, the customer's documents beside the checkout, the kit's own library, and folders of a machine.
ELSEWHERE = ("target/", "out/", "../shared/", "logic/", "antt/", "thepowersgang/", "/")
# What `rt` makes of a crate.
MADE = re.compile(r"crates/\w+/out/")
# What `install` puts in place.
INSTALLED = ("PREFIX/", "LIBDIR/")
# `logic-built=trusted`, `pinned=no`: fields of a line that the kit prints.
OF_OTHERS = re.compile(r"rattle-kit-.*|[\w-]+=[\w,]*|help:|-[a-zA-Z].*|--(?:allow-holes|anew|fix-imports|only|start)(?: [A-Z]+)?|PIXMAN_\w+|pixman_\w+")
PANIC = re.compile(r"`[\w/]+\.rs:\d+`:\s+$")
PATH = re.compile(r"[\w.+*…-]*(?:/[\w.+*…-]*)+|[\w+-]+\.(?:antt|c|calls|edit|h|md|py|rs|rt|sh|txt)")
PLACE = re.compile(r"((?:\w+/)*\w+\.rs):\d+")
QUALIFIED = re.compile(r"[\w·]+(?:::[\w·]+)+(?:\(.*\))?")
MEMBER = re.compile(r"([A-Z]\w*)\.([\w-]+)")
# A list of names after one noun: crates `a`, `b` and `c`.
NOUN = re.compile(
    r"\b(crate|mistake|function|enum|struct|record|lemma|file)s?\s+(?:`[^`]+`(?:,\s+|\s+and\s+|\s+or\s+))*$"
)
DECLARED = {
    "function": (r"\bfn {}\b|^[\w ]+[ *]{}\(|^def {}\(", (".rt", ".rs", ".c", ".h", ".py")),
    "enum": (r"\benum {}\b", (".rt", ".rs")),
    "struct": (r"\bstruct {}\b", (".rt", ".rs", ".h")),
    "record": (r"\brecord {}\b", (".antt",)),
    "lemma": (r"^(?:pub )?{} :", (".antt",)),
}


class Names:
    def __init__(self, tree, original=None):
        self.tree = tree
        # The words of the original's files, or None where they are not at hand.
        self.original = original
        self.stand_ins = {*STAND_INS, *self.script_stand_ins()}
        self.notice = re.findall(r"Kernel/\S+\.rs", tree.files["NOTICE"])
        self.mistakes = {pathlib.PurePath(path).stem for path in tree.files if path.endswith(".edit")}
        self.known = {}
        # What was wrong with a text, by its path and itself.
        self.seen = {}

    def script_stand_ins(self):
        """Those of the tables of call scripts: ID, X, COLOUR, ANSWER."""
        page = paragraphs(self.tree.files["docs/CALL-SCRIPT.md"])
        spans = [span for paragraph in page for span, _, _ in paragraph.spans()]
        return {word for span in spans for word in re.findall(r"\b[A-Z]+\b", span)}

    def wrong(self, text, before, folders, document):
        """Why it is not there; "" if it is. `before` is what the paragraph says before it."""
        if PANIC.search(before):
            return ""
        for form in (self.command, self.path, self.line, self.value, self.qualified, self.member, self.words):
            said = form(text, folders, document)
            if said is not None:
                break
        noun = NOUN.search(before)
        return said or (self.of_noun(text, noun[1]) if noun else "")

    # Forms: each gives None of what is another one -----------------------------------------------------------------

    def command(self, text, folders, document):
        first, *rest = re.sub(r"^(?:[A-Z_]+=\S+ )+", "", text).split() or [text]
        if first in OTHERS:
            return self.wrong_files(rest)
        if first == "rt":
            return self.of_kit(rest)
        if first == "bash" and rest:
            first, *rest = rest
        elif first.startswith("./"):
            first = first[2:]
        elif first not in self.tree.commands or "/" not in first and not rest:
            return None
        if first not in self.tree.commands:
            return f"there is no command {first}"
        return self.wrong_options(first, rest) or self.wrong_files(rest)

    def of_kit(self, words):
        if words and words[0] not in KIT:
            return f"rt has no command {words[0]}"
        # `rt all check`, `rt lemma WORD`: what stands behind is no crate.
        crates = [word for word in words[1:2] if re.fullmatch(r"[a-z_]+", word) and words[0] in ("ci", "must-fail", "check")]
        return next((f"there is no crate {name}" for name in crates if name not in self.tree.crates), "")

    def wrong_options(self, command, words):
        said = self.tree.files[command] + self.tree.files.get(f"{command}.py", "")
        options = [word for word in words if word.startswith("--")]
        return next((f"{command} takes no {option}" for option in options if option not in said), "")

    def wrong_files(self, words):
        """Those that begin with a folder of the repository; another word may be anything."""
        paths = [word for word in words if PATH.fullmatch(word) and word.split("/")[0] in self.tree.folders]
        return next((f"there is no {path}" for path in paths if not self.is_there(path)), "")

    def path(self, text, folders, document):
        place = PLACE.fullmatch(text)
        text = place[1] if place else text
        if not PATH.fullmatch(text):
            return None
        if text.startswith(INSTALLED):
            return "" if pathlib.PurePath(text).name in self.tree.files["install"] else f"install puts no {text} there"
        if text.startswith(ELSEWHERE) or self.of_original(text):
            return ""
        beside = str(pathlib.PurePath(document).parent / text)
        if self.is_there(text) or self.is_there(f"crates/{text}") or self.is_there(beside):
            return ""
        found = self.ending(text)
        if not found:
            return f"there is no {text}"
        if folders and "/" in text.strip("/") and not any(path.startswith(tuple(folders)) for path in found):
            return f"there is no {text} in {' or '.join(sorted(folders))}"
        return ""

    def line(self, text, folders, document):
        first, *rest = text.split()
        if first not in self.tree.script or not rest or not all(re.fullmatch(r"\d+", word) for word in rest):
            return None
        count, more = self.tree.script[first]
        if len(rest) < count or len(rest) > count and not more:
            return f"a line `{first}` has {count} numbers, and not {len(rest)}"
        return ""

    def value(self, text, folders, document):
        words = text.split()
        if words[0][0].isdigit() or not re.search(r"[^\W\d_]", text) or OF_OTHERS.fullmatch(text):
            return ""
        return "" if all(word.strip("…<[]|") in self.stand_ins | {""} for word in words) else None

    def qualified(self, text, folders, document):
        if not QUALIFIED.fullmatch(text):
            return None
        *_, owner, name = text.partition("(")[0].split("::")
        for path, said in self.tree.files.items():
            if path.endswith((".rt", ".rs")) and self.is_of(owner, path, said) and self.declares(path, said, name):
                return ""
        return "" if self.original_has([owner, name], document) else f"there is no {name} of {owner}"

    def declares(self, path, said, name):
        """Whether a file does; a case of an enum is any word with a capital, and a module is also a file or folder."""
        if name[0].isupper():
            return name in self.tree.words_of(path)
        is_module = name in path.split("/") or pathlib.PurePath(path).stem == name
        return is_module or re.search(rf"\b(?:fn|mod) {name}\b", said)

    def is_of(self, owner, path, said):
        """A file of that crate or module, or one that has the methods of that type."""
        parts = pathlib.PurePath(path).with_suffix("").parts
        return owner in parts or re.search(rf"\b(?:impl|struct|enum)(?:<[^>]*>)? (?:\w+ for )?{owner}\b", said)

    def member(self, text, folders, document):
        found = MEMBER.fullmatch(text)
        if not found:
            return None
        paths = [path for path in self.tree.by_name.get(found[1], ()) if path.endswith(".antt")]
        form = re.compile(rf"^\s*(?:(?:pub|abbrev|unfoldable|record|data) )*{re.escape(found[2])} [^=\n]*:", re.M)
        if text in self.tree.words or any(form.search(self.tree.files[path]) for path in paths):
            return ""
        return f"no file {found[1]} defines {found[2]}" if paths else None

    def words(self, text, folders, document):
        if text in self.tree.words or text in self.tree.by_name or text in self.stand_ins:
            return ""
        words = [word.strip(".:") for word in re.findall(r"[^\s(){};,\[\]\"'=<>&|…]+…?|…[\w-]+", text)]
        missing = [word for word in words if not self.is_word(word)]
        return "" if self.original_has(missing, document) else f"no code has {', '.join(missing)}"

    # What there is ---------------------------------------------------------------------------------------------------

    def is_word(self, word):
        if word in self.tree.words or word in self.tree.by_name or word in self.stand_ins or len(word) <= 1:
            return True
        if word.endswith("…"):
            return any(known.startswith(word[:-1]) for known in self.tree.words)
        if word.startswith("…"):
            return any(known.endswith(word[1:]) for known in self.tree.words)
        if not re.search(r"[^\W\d_]", word) or word.startswith((*ELSEWHERE, *INSTALLED)):
            return True
        if word.startswith("--"):
            return self.is_option(word)
        parts = [part for part in re.split(r"[.:+*/!-]+", word) if part]
        return len(parts) > 1 and re.search(r"[.:]", word) and all(self.is_word(part) for part in parts)

    def is_option(self, word):
        return any(word in self.tree.files[command] for command in self.tree.commands)

    def is_there(self, path):
        path = path.rstrip("/")
        if path in self.tree.files or path in self.tree.folders or f"{path}.antt" in self.tree.files or MADE.match(path):
            return True
        return any(part in path for part in ("*", "…", *self.stand_ins)) and bool(self.matching(f"^{{}}$", path))

    def matching(self, form, path):
        """Paths in which any name may stand where the document has a stand-in."""
        parts = [r"[^/]+" if part in self.stand_ins else re.escape(part) for part in path.split("/")]
        form = re.compile(form.format("/".join(parts).replace(r"\*", "[^/]*").replace("…", "[^/]*") + r"(?:\.antt)?"))
        return [known for known in (*self.tree.files, *self.tree.folders) if form.match(known)]

    def ending(self, path):
        """The files and folders whose path ends so."""
        path = path.rstrip("/")
        if path not in self.known:
            self.known[path] = self.matching("^(?:.*/)?{}$", path)
        return self.known[path]

    def files_of(self, path):
        """The files that a path means, or all below the folder that it means."""
        path = path.rstrip("/")
        whole = [known for known in (path, f"crates/{path}", f"{path}.antt", f"crates/{path}.antt")]
        places = [known for known in whole if known in self.tree.files or known in self.tree.folders]
        found = set()
        for place in places or self.ending(path):
            found |= {place} if place in self.tree.files else {p for p in self.tree.files if p.startswith(f"{place}/")}
        return sorted(found)

    def stands_in(self, name, paths):
        """A word of one of these files, or the name of one."""
        parts = {part for path in paths for part in pathlib.PurePath(path).with_suffix("").parts}
        return name in parts or any(name in self.tree.words_of(path) for path in paths)

    def of_original(self, path):
        return any(known.endswith(f"/{path}") for known in self.notice)

    def original_has(self, words, document):
        """Whether all words are the original's, in a document that speaks of it; true where it is not at hand."""
        if not words or document not in OF_ORIGINAL:
            return not words
        return self.original is None or all(word in self.original for word in words)

    def of_noun(self, name, noun):
        if not re.fullmatch(r"[\w-]+", name):
            return ""
        if noun in ("crate", "mistake"):
            known = self.tree.crates if noun == "crate" else self.mistakes
            return "" if name in known else f"there is no {noun} {name}"
        if noun == "file":
            return "" if name in self.tree.by_name else f"there is no file {name}"
        form, suffixes = DECLARED[noun]
        form = re.compile(form.replace("{}", re.escape(name)), re.M)
        there = any(path.endswith(suffixes) and form.search(said) for path, said in self.tree.files.items())
        return "" if there else f"there is no {noun} {name}"


def original_words(folder):
    """The words of the original's files, or None where they are not at hand."""
    paths = list(folder.rglob("*.rs")) if (folder / "Kernel").is_dir() else []
    return frozenset().union(*(code_words(path.read_text(), ".rs") for path in paths)) if paths else None
