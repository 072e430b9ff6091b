"""Which bytes of a session belong to no field: they may hold anything, and are not compared.

The session is windows::Session, a #[repr(C)] struct of such structs, laid out as C does it.
"""
import re

SIZES = {"u8": 1, "bool": 1, "u16": 2, "i16": 2, "u32": 4, "u64": 8, "usize": 8}
DECLARED = re.compile(r"#\[repr\(C\)\]\n(?:#\[derive\([^\n]*\n)?pub struct (\w+)(?: \{\n(.*?)\n\}|\(pub (\w+)\);)", re.S)
FIELD = re.compile(r"^    pub \w+: (.*),$", re.M)


def structs(texts):
    """The types of each struct's fields, by its name; all that were declared where there are several."""
    found = {}
    for text in texts:
        for name, body, only in DECLARED.findall(text):
            found.setdefault(name, set()).add(tuple(FIELD.findall(body)) or (only,))
    return found


class Layout:
    def __init__(self, texts):
        self.structs = structs(texts)

    def fields(self, name):
        [fields] = self.structs[name]
        return fields

    def align(self, kind):
        if kind in SIZES:
            return SIZES[kind]
        if array := re.fullmatch(r"\[(\w+); \d+\]", kind):
            return self.align(array[1])
        return max(map(self.align, self.fields(kind)))

    def used(self, kind):
        """For each byte of a type whether a field has it."""
        if kind in SIZES:
            return [True] * SIZES[kind]
        if array := re.fullmatch(r"\[(\w+); (\d+)\]", kind):
            return self.used(array[1]) * int(array[2])
        found = []
        for field in self.fields(kind):
            found += [False] * (-len(found) % self.align(field))
            found += self.used(field)
        return found + [False] * (-len(found) % self.align(kind))


def paddings(texts):
    """Where each stretch of such bytes begins and ends, and how many bytes a session has."""
    used = Layout(texts).used("Session")
    edges = [at for at in range(len(used) + 1) if (used + [True])[at] != ([True] + used)[at]]
    return list(zip(edges[::2], edges[1::2])), len(used)
