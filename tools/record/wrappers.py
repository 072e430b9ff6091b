"""wrappers.py HEADER CRATES FOLDER: what differs from call to call, made from the header's declarations.

FOLDER/fields.h puts the header's structs into a record, field by field. FOLDER/wrapped.c has a wrapper of each call for
the recorder, FOLDER/played.c makes the call again for the player. FOLDER/names has the name of each call. What a
parameter is, is seen by its type and name: a session; a store or a screen, which is known by its address, only read
(const) or drawn on; another array, which is only read or written; a number or a struct. FOLDER/paddings.c says which
bytes of a session are not compared (session_layout.py), by the structs of CRATES.
"""
import pathlib
import re
import sys
import zlib

from session_layout import paddings

SCALARS = {"uint8_t": "u8", "uint32_t": "u32", "int16_t": "i16", "double": "double", "size_t": "size_t", "bool": "bool"}
MEMORIES = {"store": "STORE", "screen": "SCREEN"}


def code(header):
    """Without comments and lines of the preprocessor, one space between words."""
    bare = re.sub(r"/\*.*?\*/", " ", header, flags=re.S)
    return " ".join(line for line in bare.splitlines() if not line.startswith("#"))


def structs(text):
    """Each struct with its fields: type, name, and how many where it is an array."""
    for name, body in re.findall(r"typedef struct (Roq\w+) \{(.*?)\}", text):
        fields = []
        for declared in filter(None, map(str.strip, body.split(";"))):
            kind, names = declared.split(" ", 1)
            for field in names.split(","):
                found = re.fullmatch(r"(\w+)(?:\[(\d+)\])?", field.strip())
                fields.append((kind, found[1], found[2]))
        if name != "RoqSession":
            yield name, fields


class Call:
    """A declaration, with its parameters in groups: (what, type, name, length)."""

    def __init__(self, result, name, parameters):
        self.result, self.name = result, name
        self.declared = " ".join(f"{result} {name}({parameters})".split())
        self.number = zlib.crc32(self.declared.encode())
        self.groups = list(self.read([p.split() for p in parameters.split(",")]))

    def read(self, words):
        while words:
            *kind, name = words.pop(0)
            if not name.startswith("*"):
                yield "number", kind[0], name, None
            elif kind[-1] == "RoqSession":
                yield "session", " ".join(kind), name[1:], None
            elif words and words[0][0] == "size_t" and kind[-1] in ("uint32_t", "uint8_t"):
                yield self.what(kind, name[1:]), kind[-1], name[1:], words.pop(0)[1]
            else:
                sys.exit(f"wrappers.py: {self.name}: the array {name[1:]} has no length behind it, or other elements")

    @staticmethod
    def what(kind, name):
        if name in MEMORIES:
            return "memory" if kind[0] == "const" else "drawn"
        return "read" if kind[0] == "const" else "written"

    def parameters(self):
        return self.declared[self.declared.index("(") :]

    def arguments(self):
        return ", ".join(f"{n}, {length}" if length else n for _, _, n, length in self.groups)


def calls(text):
    """Those that take nothing are constants of the archive, and are not recorded."""
    return [Call(*found) for found in re.findall(r"(\w+) (roq_\w+)\((?!void\))([^)]*)\);", " ".join(text.split()))]


def suffix(kind):
    return SCALARS.get(kind, kind)


def each_field(fields, line):
    """A line of C for each field, in a loop where it is an array."""
    for kind, name, count in fields:
        if count:
            yield f"    for (size_t i = 0; i < {count}; i++)"
            yield "    " + line(kind, f"{name}[i]")
        else:
            yield line(kind, name)


def put_functions(text):
    yield '#include "recording.h"\n#include "roqshyn.h"\n'
    for kind, short in SCALARS.items():
        if short != "u32":
            yield f"static inline void put_{short}(struct bytes *b, {kind} v) {{ put(b, &v, sizeof v); }}\n"
    for name, fields in structs(text):
        yield f"static inline void put_{name}(struct bytes *b, {name} v) {{"
        yield from each_field(fields, lambda kind, field: f"    put_{suffix(kind)}(b, v.{field});")
        yield "}\n"


def wrapper(call):
    """The wrapper of a call; a call that is not recorded is made at once."""
    parameters, arguments = call.parameters(), call.arguments()
    yield f"{call.result} __real_{call.name}{parameters};"
    yield f"{call.result} __wrap_{call.name}{parameters};"
    yield f"{call.result} __wrap_{call.name}{parameters} {{"
    yield f"    struct bytes *record = record_begin(0x{call.number:08x});"
    yield f"    if (record == NULL)\n        return __real_{call.name}({arguments});"
    if call.name == "roq_start":
        yield "    record_start();"
    for what, kind, name, length in call.groups:
        if what == "session":
            yield f"    record_session({name});"
        elif what in ("memory", "drawn"):
            yield f"    record_memory({MEMORIES[name]}, {name}, {length});"
        elif what == "number":
            yield f"    put_{suffix(kind)}(record, {name});"
        else:
            yield f"    record_{'read' if what == 'read' else 'lent'}({name}, {length}, sizeof *{name});"
    yield f"    {call.result} given = __real_{call.name}({arguments});"
    for what, _, name, length in call.groups:
        if what in ("written", "drawn"):
            yield f"    record_{what}({name}, {length}, sizeof *{name});"
    yield f"    put_{suffix(call.result)}(record, given);\n    record_end();\n    return given;\n}}\n"


def get_functions(text):
    for name, fields in structs(text):
        yield f"static inline {name} play_{name}(struct play *play) {{"
        yield f"    {name} v;\n    memset(&v, 0, sizeof v);"
        yield from each_field(fields, lambda kind, field: f"    v.{field} = play_{suffix(kind)}(play);")
        yield "    return v;\n}\n"


def player(call):
    """Makes the call that a record has."""
    yield f"static void play_{call.name}(struct play *play) {{"
    for what, kind, name, length in call.groups:
        if what == "session":
            yield f"    RoqSession *{name} = play_session(play);"
        elif what in ("memory", "drawn"):
            yield f"    size_t {length};\n    uint32_t *{name} = play_memory(play, {MEMORIES[name]}, &{length});"
        elif what == "number":
            yield f"    {kind} {name} = play_{suffix(kind)}(play);"
        else:
            is_written = "true" if what == "written" else "false"
            yield f"    size_t {length};"
            yield f"    {kind} *{name} = play_array(play, &{length}, sizeof *{name}, {is_written});"
    names = {name for _, _, name, _ in call.groups}
    if {"screen", "width", "height"} <= names:
        yield "    play_picture(play, width, height);"
    yield "    if (!play_made(play))\n        return;"
    yield f"    {call.result} given = {call.name}({call.arguments()});"
    for what, _, name, length in call.groups:
        if what in ("written", "drawn"):
            yield f"    play_{what}(play, {name}, {length} * sizeof *{name});"
    yield f"    put_{suffix(call.result)}(&play->given, given);\n}}\n"
    yield f"static void show_{call.name}(struct play *play) {{"
    for what, _, _, _ in call.groups:
        if what in ("written", "drawn"):
            yield "    play_sum(play);"
    yield f"    (void)play_{suffix(call.result)}(play);\n}}\n"


def written(text):
    """Each file's lines."""
    made = calls(text)
    yield "names", [call.name for call in made]
    yield "fields.h", put_functions(text)
    wrappers = [line for call in made for line in wrapper(call)]
    yield "wrapped.c", ['#include "fields.h"\n#include "recorder.h"\n', *wrappers]
    players = [line for call in made for line in player(call)]
    table = [f'    {{0x{c.number:08x}, "{c.name}", play_{c.name}, show_{c.name}}},' for c in made]
    head = ['#include "fields.h"\n#include "play.h"\n\n#include <string.h>\n', *get_functions(text), *players]
    tail = ["const struct known known_calls[] = {", *table, "};\n", f"const size_t known_count = {len(made)};"]
    yield "played.c", [*head, *tail]


def padding_table(crates):
    """The bytes that are no field's, as a table for the player."""
    found, size = paddings(path.read_text() for path in sorted(pathlib.Path(crates).glob("*/src/**/*.rt")))
    yield '#include "play.h"\n'
    yield f'_Static_assert(sizeof(RoqSession) == {size}, "the session has another layout");\n'
    yield "const struct padding session_paddings[] = {"
    yield from (f"    {{{begins}, {ends - begins}}}," for begins, ends in found)
    yield f"}};\n\nconst size_t padding_count = {len(found)};"


def main(header, crates, folder):
    for name, lines in (*written(code(pathlib.Path(header).read_text())), ("paddings.c", padding_table(crates))):
        (pathlib.Path(folder) / name).write_text("\n".join(lines) + "\n")


if __name__ == "__main__":
    main(*sys.argv[1:])
