"""How often each exported call copies the session: copies.py ARCHIVE RECORDED [--record]

It reads the object code: calls of memcpy and memmove, and `rep movs`, whose length is a constant. The compiler may copy a session in parts, a
window at a time, so the count is how many sessions all of them are together, to the nearest; lengths below a part of a window are left out. A
loop of single words is not seen; the compiler makes such loops into calls. A function that is called counts at each place where it is
called. Printed is a line `call copies` for each exported call. It fails where a call has more copies than the file RECORDED says; a call that
is not listed there may have none. With --record it writes that file instead.
"""
import re
import subprocess
import sys

# The 16 windows of 348 bytes; and the shortest part of a window that counts, its damage.
SESSION = 16 * 348
PART = 130
WIDTHS = {"b": 1, "w": 2, "l": 4, "q": 8}
KEPT_BY_CALLS = {"bx", "bp", "sp", "r12", "r13", "r14", "r15"}


def functions(archive):
    """The instructions of each function: address, operation, operands, and what the linker is to put there."""
    objdump = ["objdump", "--disassemble", "--reloc", "--no-show-raw-insn", archive]
    run = subprocess.run(objdump, capture_output=True, text=True)
    if run.returncode:
        sys.exit(f"objdump cannot read {archive}")
    text = run.stdout
    found = {}
    for line in text.splitlines():
        if head := re.match(r"[0-9a-f]+ <(.+)>:$", line):
            code = found.setdefault(head[1], [])
        elif linked := re.match(r"\s+[0-9a-f]+: R_X86_64_\w+\s+(?:\.text\.)?(\S+?)(?:[-+]0x[0-9a-f]+)?$", line):
            code[-1][3] = linked[1]
        elif step := re.match(r"\s+([0-9a-f]+):\s+(rep \w+|\w+)\s*([^#]*)", line):
            code.append([step[1], step[2], step[3].strip(), None])
    return found


def register(operand):
    """A register without its width."""
    short = re.fullmatch(r"%(?:[er]?(ax|bx|cx|dx|si|di|bp|sp)|(r\d+)[dwb]?)", operand)
    return short and (short[1] or short[2])


def follow(known, operation, operands):
    """The constants in registers after an instruction."""
    source, _, target = operands.rpartition(",")
    if operation == "call":
        return {r: n for r, n in known.items() if r in KEPT_BY_CALLS}
    if not register(target) or re.match("cmp|test|push", operation):
        return known
    after = {r: n for r, n in known.items() if r != register(target)}
    if operation.startswith("mov"):
        constant = re.fullmatch(r"\$0x([0-9a-f]+)", source)
        after[register(target)] = int(constant[1], 16) if constant else known.get(register(source), 0)
    return after


def steps(code):
    """The constant lengths that a function copies, and the functions that it calls or ends with."""
    known, jumped, lengths, calls = {}, {}, [], []
    for address, operation, operands, linked in code:
        known = jumped.get(address, {}) | known
        if linked in ("memcpy", "memmove"):
            lengths.append(known.get("dx", 0))
        elif linked and re.match("call|jmp", operation):
            calls.append(linked)
        elif operation.startswith("rep movs"):
            lengths.append(known.get("cx", 0) * WIDTHS[operation[-1]])
        elif operation.startswith("j"):
            jumped[operands.split()[0]] = known
        known = {} if operation in ("jmp", "ret") else follow(known, operation, operands)
    return lengths, calls


def lengths_of(name, code, path=()):
    """All that a call of a function copies; a function that calls itself is counted once."""
    if name not in code or name in path:
        return []
    lengths, calls = steps(code[name])
    return lengths + [length for callee in calls for length in lengths_of(callee, code, path + (name,))]


def copies(lengths):
    return round(sum(n for n in lengths if n >= PART) / SESSION)


def read(path):
    with open(path) as file:
        return {name: int(count) for name, count in (line.split() for line in file)}


def main(archive, path, record=None):
    code = functions(archive)
    counts = {name: copies(lengths_of(name, code)) for name in sorted(code) if name.startswith("roq_")}
    if not counts:
        sys.exit(f"{archive} has no function roq_*")
    table = "".join(f"{name} {count}\n" for name, count in counts.items())
    if record:
        with open(path, "w") as file:
            file.write(table)
        return
    print(table, end="")
    recorded = read(path)
    grown = False
    for name in sorted(recorded | counts):
        now, before = counts.get(name, 0), recorded.get(name, 0)
        if now < before:
            print(f"{name} copies the session {now} times and no longer {before}: lower its line in {path}", file=sys.stderr)
        if now > before:
            print(f"{name} copies the session {now} times, and {path} allows {before}", file=sys.stderr)
            grown = True
    sys.exit(grown)


main(*sys.argv[1:])
