"""What a name in docs/TRACE.md stands for, and where that is.

`Order.show` or `rules/Order.show` is a definition, `windows::inner::one::show` a function or a type of the code,
`demand-3` a theorem or a lemma, `rules/drag_uncovers_nothing` a mistake, and a path a file.
"""
import dataclasses
import pathlib

import believed

# Folders whose files are run: what lies there is a test or an example.
RUN = ("compare/", "examples/", "include/", "bindings/", "bench/", "tools/", "mistakes/run", "crates/replay/")


@dataclasses.dataclass(frozen=True)
class Link:
    # One of definition, table, function, type, theorem, mistake, test and document.
    sort: str
    name: str
    path: str
    line: int = 0
    # What the repository has it by.
    key: object = None


class Links:
    def __init__(self, repository):
        self.repository = repository
        self.short, self.known = {}, {}
        for file, lines in repository.lines.items():
            for name in lines.values():
                self.short.setdefault(f"{stem(file)}.{name}", []).append((file, name))

    def of_definition(self, definition):
        """How it is written: with its crate only where two files of one name define it."""
        file, name = definition
        brief = f"{stem(file)}.{name}"
        return brief if len(self.short[brief]) == 1 else f"{file.split('/')[0]}/{brief}"

    def definition(self, text):
        crate, _, brief = text.rpartition("/")
        return [found for found in self.short.get(brief, ()) if crate in ("", found[0].split("/")[0])]

    def all(self, text):
        """What a name may stand for; a name in order stands for one thing."""
        if text not in self.known:
            self.known[text] = self.looked_up(text)
        return self.known[text]

    def looked_up(self, text):
        repository, found = self.repository, []
        for file, name in self.definition(text):
            line = next(line for line, one in repository.lines[file].items() if one == name)
            sort = "table" if believed.is_example(file) else "definition"
            found.append(Link(sort, text, f"crates/{file}", line, (file, name)))
        if text in repository.functions:
            function = repository.functions[text]
            found.append(Link("function", text, function.module.file, function.line, text))
        elif text in repository.types:
            found.append(Link("type", text, *repository.types[text], text))
        if text in repository.mistakes:
            found.append(Link("mistake", text, repository.mistakes[text][0], 0, text))
        if not found and (repository.root / text).is_file() and not pathlib.Path(text).is_absolute():
            found.append(Link("test" if text.startswith(RUN) else "document", text, text, 0, text))
        if not found:
            proved = repository.statement_of(text)
            places = repository.lemmas.get(text.rpartition(".")[2], [])
            places = [place for place in places if "." not in text or stem(place[0]) == text.rpartition(".")[0]]
            places = [place for place in places if place[0] == proved] or places
            found += [Link("theorem", text, *place, text.rpartition(".")[2]) for place in places]
        return found


def stem(file):
    return pathlib.Path(file).stem
