"""stack.py ARCHIVE [--write | --test] MEASURED DRIVER: the bytes of stack that each exported call takes at most.

It reads the object code. A function is followed from its first instruction along its jumps, with the bytes that lie on
the stack at each: its return address, what it pushes and what it takes off %rsp. Where a function writes below %rsp,
the whole red zone of 128 bytes counts. A call adds what the called function takes; a function that calls itself is
counted as often as DEPTHS says, with the reason. memcpy, memmove and memset are not in the archive: ALLOWED bytes each.

It refuses what it cannot work out: a frame whose size is no constant, a call through a register or of a function that
it does not know, a jump that no table in the archive explains, an instruction that it does not reach, and a function
that calls itself, or others that call it, and is not in DEPTHS. It fails above LIMIT.

MEASURED has lines `call bytes`, and DRIVER is the object code that measured them (bench/stack.c): what was measured
holds its frame too, so it is compared with what `run_CALL` in it takes. The figures of the manual and of docs/SPEED.md
must not contradict: the manual's are at least those worked out, the measured ones of SPEED.md at most.
"""
import pathlib
import re
import subprocess
import sys

ROOT = pathlib.Path(__file__).resolve().parent.parent
MANUAL, SPEED = "docs/SAFETY-MANUAL.md", "docs/SPEED.md"
LIMIT = 16 * 1024
WORD = 8
RED_ZONE = 128
ALLOWED = 128
EXTERNAL = ("memcpy", "memmove", "memset")
# How many turns of a function that calls itself are on the stack at most. A turn has the rectangles from the i-th of n
# on; it looks for the first of them that meets its part, the k-th, and calls itself from k + 1 on; where there is none
# it calls itself no more. So n - i falls with each turn, which is the measure of the function's proof, and i goes from
# 0 to n at most: n + 1 turns. n is at most 15: at most 16 windows are shown, and each caller hands over those from the
# place behind the window's own on. The manual names the proofs.
WINDOWS_ABOVE = 15
SEARCH = "one turn for each of the at most 15 windows above, and the last"
DEPTHS = {
    "visible::walk::walk": (WINDOWS_ABOVE + 1, SEARCH),
}
# The functions of the driver that measures.
DRIVER = "run_"
PADDING = re.compile(r"nop|data16|cs|xchg +%ax,%ax|int3")
LINE = re.compile(r"\s+([0-9a-f]+):\s+(.*?)\s*(?:(?<!<)#.*)?$")
LINKED = re.compile(r"\s+[0-9a-f]+: (R_X86_64_\w+)\s+(\S+?)([-+]0x[0-9a-f]+)?$")
ENTRY = re.compile(r"([0-9a-f]{16}) (R_X86_64_\w+)\s+(\S+?)([-+]0x[0-9a-f]+)?$")
JUMP_BY_TABLE = re.compile(r"jmp +\*%r\w+")
CONDITIONAL = re.compile(r"j(?!mp)\w+|loop\w*")
# A place below %rsp.
BELOW = re.compile(r"-0x[0-9a-f]+\(%rsp(?!\),%rsp)")
# What writes %rsp by its name, beside the forms that `moved` knows.
WRITES = re.compile(r"(?!cmp|test)\w+ .*,%[er]?spl?|(?:pop|xchg|inc|dec|neg|not|sh\w+|sa\w+|ro\w+)\w* .*%[er]?spl?")
ODD = re.compile(r"(?:push|pop)(?!cnt)(?!q? )|enter|leave|ret\w* +\$|iret|syscall|sysenter|int(?!3)|l(?:call|jmp|ret)|bnd|notrack")


class Refused(Exception):
    """What is wrong, in a sentence."""


class Step:
    """An instruction: where it is, its words, and what the linker is to put there."""

    def __init__(self, at, text):
        self.at, self.text = at, re.sub(r"\s+", " ", text)
        self.linked, self.offset = "", 0

    def target(self):
        """The function and the place in it that a call or a jump names; of one in the archive's own words too."""
        if self.linked:
            return self.linked.removeprefix(".text."), self.offset + 4
        found = re.search(r" <(.+?)(?:\+0x([0-9a-f]+))?>$", self.text)
        return (found[1], int(found[2] or "0", 16)) if found else ("", 0)


def objdump(*words):
    run = subprocess.run(["objdump", *words], capture_output=True, text=True)
    if run.returncode:
        raise Refused(f"objdump cannot read {words[-1]}")
    return run.stdout


class Code:
    """The functions of object code, and its tables of places to jump to."""

    def __init__(self, *files):
        self.functions, self.tables = {}, {}
        for file in files:
            self.read(objdump("--disassemble", "--reloc", "--no-show-raw-insn", file))
            self.read_tables(objdump("--reloc", file))

    def read(self, text):
        steps = None
        for line in text.splitlines():
            if head := re.match(r"([0-9a-f]+) <(.+)>:$", line):
                if head[2] in self.functions:
                    raise Refused(f"{head[2]} is there twice")
                steps, start = self.functions.setdefault(head[2], []), int(head[1], 16)
            elif found := LINKED.match(line):
                steps[-1].linked, steps[-1].offset = found[2], int(found[3] or "0", 16)
            elif (found := LINE.match(line)) and steps is not None:
                steps.append(Step(int(found[1], 16) - start, found[2]))

    def read_tables(self, text):
        """Of each section that is no code: the places that stand in it, by where they stand."""
        for line in text.splitlines():
            if head := re.match(r"RELOCATION RECORDS FOR \[(.+)\]:", line):
                places = None if head[1].startswith((".text", ".eh_frame", ".debug")) else self.tables.setdefault(head[1], {})
            elif (found := ENTRY.match(line)) and places is not None:
                places[int(found[1], 16)] = found[3].removeprefix(".text."), int(found[4] or "0", 16)


def constant(word):
    """A number in an instruction, with its sign."""
    number = int(word, 0)
    return number - (1 << 64) if number >= 1 << 63 else number


def moved(text):
    """By how many bytes an instruction makes the stack longer; 0 where it leaves %rsp."""
    if re.match(r"pushq? ", text):
        return WORD
    if re.match(r"popq? (?!%rsp)", text):
        return -WORD
    if found := re.fullmatch(r"(sub|add) +\$(-?0x[0-9a-f]+),%rsp", text):
        return constant(found[2]) * (1 if found[1] == "sub" else -1)
    if found := re.fullmatch(r"lea (-?0x[0-9a-f]+)\(%rsp\),%rsp", text):
        return -constant(found[1])
    if ODD.match(text) or WRITES.fullmatch(text):
        raise Refused(f"`{text}` makes its frame, which is then no constant")
    return 0


class Frame:
    """A function by itself: the bytes on the stack at most, and at each call, return address included."""

    def __init__(self, name, code):
        self.name, self.code, self.most, self.calls, self.own_calls = name, code, WORD, [], []
        self.steps = code.functions[name]
        self.index = {step.at: number for number, step in enumerate(self.steps)}
        self.depths, self.waiting = {}, [(0, WORD)]
        while self.waiting:
            self.follow(*self.waiting.pop())
        for number, step in enumerate(self.steps):
            if number not in self.depths and not PADDING.match(step.text):
                raise Refused(f"{name}: `{step.text}` at {step.at:x} is not reached from its first instruction")

    def follow(self, number, depth):
        """From an instruction on, up to one that does not go on to the next."""
        while number is not None:
            if number >= len(self.steps):
                raise Refused(f"{self.name} goes on behind its last instruction")
            if self.depths.setdefault(number, depth) != depth:
                raise Refused(f"{self.name} has two depths at {self.steps[number].at:x}: its frame is no constant")
            number, depth = self.step(number, depth)
            if number in self.depths and self.depths[number] == depth:
                return

    def step(self, number, depth):
        step = self.steps[number]
        try:
            after = depth + moved(step.text)
        except Refused as why:
            raise Refused(f"{self.name}: {why}") from None
        self.most = max(self.most, after, depth + RED_ZONE if BELOW.search(step.text) else 0)
        operation = step.text.split(" ")[0]
        if operation in ("call", "callq"):
            self.call(step, depth)
        elif JUMP_BY_TABLE.fullmatch(step.text):
            self.waiting += [(self.place(step, at), depth) for at in self.places(step)]
            return None, depth
        elif operation in ("jmp", "jmpq") or CONDITIONAL.fullmatch(operation):
            self.jump(step, depth)
            if operation.startswith("jmp"):
                return None, depth
        elif operation in ("ret", "retq", "ud2", "hlt"):
            if operation.startswith("ret") and depth != WORD:
                raise Refused(f"{self.name} returns with {depth - WORD} bytes on the stack")
            return None, depth
        return number + 1, after

    def call(self, step, depth):
        name, place = step.target()
        if not name or place:
            raise Refused(f"{self.name}: `{step.text}` at {step.at:x} is a call through a register or into a function")
        (self.own_calls if name == self.name else self.calls).append((depth, name))

    def jump(self, step, depth):
        """To a place of its own, or to another function instead of a call: that one's return address is there."""
        name, place = step.target()
        if name == self.name:
            self.waiting.append((self.place(step, place), depth))
        elif name and not place and not step.text.startswith("jmp *"):
            self.calls.append((depth - WORD, name))
        else:
            raise Refused(f"{self.name}: `{step.text}` at {step.at:x} is a jump that no table explains")

    def place(self, step, at):
        if at not in self.index:
            raise Refused(f"{self.name}: `{step.text}` at {step.at:x} goes to {at:x}, where no instruction begins")
        return self.index[at]

    def places(self, jump):
        """Where a jump through a register may go: all places of all tables that the function names. The number that
        is added to the table's own place was read from a table, in the function's words."""
        register = jump.text.split("*")[1]
        added = [step.text for step in self.steps if re.fullmatch(rf"add %r\w+,{register}", step.text)]
        read = [step.text for step in self.steps if re.fullmatch(rf"movslq \(%r\w+,%r\w+,4\),{register}", step.text)]
        found = [at for base in self.bases() for at in self.listed(*base)]
        if not (added and read and found):
            raise Refused(f"{self.name}: `{jump.text}` at {jump.at:x} is a jump that no table explains")
        return found

    def bases(self):
        """Where the tables begin that the function names: section and place."""
        named = {(step.linked, step.offset + 4) for step in self.steps if re.match(r"lea .*\(%rip\)", step.text)}
        return sorted(base for base in named if base[1] in self.code.tables.get(base[0], {}))

    def listed(self, section, base):
        """The places of a table, which ends where another begins. Each stands as its distance from the table."""
        entries = self.code.tables[section]
        others = {place for other, place in self.bases() if other == section}
        at = base
        while at in entries and (at == base or at not in others):
            name, offset = entries[at]
            if name != self.name:
                raise Refused(f"{self.name} has a table of places to jump to in {name}")
            yield offset - (at - base)
            at += 4


def generic(name):
    """The name of a function without the mark of what it was made for: a generic one stands once for each type."""
    return re.sub(r"::<#[0-9a-f]+>$", "", name)


class Stack:
    """What each function takes, with all that it calls."""

    def __init__(self, code, depths):
        self.code, self.depths, self.known = code, depths, {}
        for name in depths:
            if not self.made(name):
                raise Refused(f"the table of depths has {name}, and there is no such function")
            if not all(Frame(made, code).own_calls for made in self.made(name)):
                raise Refused(f"the table of depths has {name}, which does not call itself")

    def made(self, name):
        """The functions of this name in the object code."""
        return [function for function in self.code.functions if generic(function) == name]

    def bytes(self, name, path=()):
        """What a call of a function takes, its return address included."""
        if name in EXTERNAL and name not in self.code.functions:
            return WORD + ALLOWED
        if name not in self.code.functions:
            raise Refused(f"{path[-1]} calls {name}, which is not in the archive")
        if name in path:
            raise Refused(f"{' calls '.join(path[path.index(name):] + (name,))}, and that is in no table of depths")
        if name not in self.known:
            frame = Frame(name, self.code)
            below = [depth + self.bytes(called, path + (name,)) for depth, called in frame.calls]
            self.known[name] = max([frame.most, *below]) + self.again(frame)
        return self.known[name]

    def again(self, frame):
        """What the turns before the last take of a function that calls itself."""
        if not frame.own_calls:
            return 0
        if generic(frame.name) not in self.depths:
            raise Refused(f"{frame.name} calls itself, and is in no table of depths")
        return (self.depths[generic(frame.name)][0] - 1) * max(depth for depth, _ in frame.own_calls)

    def turns(self):
        """A line for each function that calls itself."""
        for name, (depth, why) in self.depths.items():
            turn = max(depth for made in self.made(name) for depth, _ in Frame(made, self.code).own_calls)
            yield f"{name}: {depth} turns of {turn} bytes, {why}"

    def exported(self, prefix="roq_"):
        return {name: self.bytes(name) for name in sorted(self.code.functions) if name.startswith(prefix)}


def table_rows(text, first):
    """The cells of the rows of the table whose first heading this is."""
    inside = False
    for line in text.splitlines():
        cells = [cell.strip() for cell in line.strip().strip("|").split("|")]
        inside = line.startswith("|") and (inside or cells[0] == first)
        if inside and re.match(r"`roq_\w+`$", cells[0]):
            yield cells


def number(cell):
    return int(cell.replace(",", ""))


def measured_in_speed(text):
    """Of docs/SPEED.md: the stack of each call, as measured."""
    return {cells[0].strip("`"): number(cells[2]) for cells in table_rows(text, "call")}


def said_in_manual(text):
    return {cells[0].strip("`"): number(cells[1]) for cells in table_rows(text, "call, stack")}


def wrong_manual(found, said):
    for name in sorted(found.keys() | said.keys()):
        if name not in said:
            yield f"{MANUAL}: it has no figure for {name}"
        elif name not in found:
            yield f"{MANUAL}: it has a figure for {name}, which the archive does not export"
        elif said[name] < found[name]:
            yield f"{MANUAL}: {name} takes up to {found[name]:,} bytes of stack, and it says {said[name]:,}"


def wrong_measured(taken, measured, who):
    """Measured figures that are greater than what was worked out, of the call with the driver's frame."""
    for name, most in sorted(taken.items()):
        if measured.get(name, 0) > most:
            yield f"{name}: {who} has {measured[name]:,} bytes of stack measured, more than the {most:,} worked out"


def above_limit(found):
    return [f"{name} takes up to {most:,} bytes of stack, more than {LIMIT:,}" for name, most in found.items() if most > LIMIT]


def with_table(text, found):
    """The manual with the figures of today."""
    rows = "".join(f"| `{name}` | {most:,} |\n" for name, most in found.items())
    head = "| call, stack | bytes at most |\n|---|---:|\n"
    begin, end = "<!-- tools/stack -->\n", "<!-- end -->"
    before, _, rest = text.partition(begin)
    if end not in rest:
        raise Refused(f"{MANUAL} has no table between {begin.strip()} and {end}")
    return before + begin + head + rows + end + rest.partition(end)[2]


def compare(found, archive, measured, driver):
    """What contradicts the figures worked out."""
    said = (ROOT / MANUAL).read_text()
    yield from wrong_manual(found, said_in_manual(said))
    taken = Stack(Code(archive, driver), DEPTHS).exported(DRIVER)
    taken = {name.removeprefix(DRIVER): most - WORD for name, most in taken.items()}
    fresh = dict(line.split() for line in pathlib.Path(measured).read_text().splitlines())
    yield from [f"{name} is not measured" for name in found if name not in fresh or name not in taken]
    yield from wrong_measured(taken, {name: int(bytes) for name, bytes in fresh.items()}, "this run")
    yield from wrong_measured(taken, measured_in_speed((ROOT / SPEED).read_text()), SPEED)


def calls_of(stack):
    """What each exported call takes."""
    found = stack.exported()
    if not found:
        raise Refused("there is no function roq_*")
    return found


def main(archive, *words):
    mode, words = (words[0], words[1:]) if words[0].startswith("--") else ("", words)
    stack = Stack(Code(archive), DEPTHS)
    found = calls_of(stack)
    if mode == "--write":
        (ROOT / MANUAL).write_text(with_table((ROOT / MANUAL).read_text(), found))
    print("\n".join([*(f"{name} {most}" for name, most in found.items()), *stack.turns()]))
    wrong = above_limit(found) + list(compare(found, archive, *words))
    if wrong:
        raise Refused("\n".join(wrong))
    if mode == "--test":
        from stack_test import refused

        print(f"{refused()} archives and tables refused")
    deepest = max(found, key=found.get)
    print(f"{len(found)} calls take at most {found[deepest]:,} bytes of stack, {deepest}; the limit is {LIMIT:,}")


if __name__ == "__main__":
    try:
        main(*sys.argv[1:])
    except Refused as why:
        sys.exit(f"tools/stack: {why}")
