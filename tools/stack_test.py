"""Object code and figures that stack.py has to refuse, and some with the bytes that it has to find: assembled anew, in
a folder of its own."""
import os
import pathlib
import subprocess
import sys
import tempfile

import stack
from stack import Code, Refused, Stack

FRAME = "push %rbx\n sub $0x20,%rsp\n"
END = "add $0x20,%rsp\n pop %rbx\n ret\n"
AGAIN = {"f": (4, "it is told to")}
TABLE = """ lea .Ltable(%rip),%rcx
 movslq (%rcx,%rax,4),%rax
 add %rcx,%rax
 jmp *%rax
"""
OFTEN = f"{FRAME} test %edi,%edi\n je 1f\n call f\n1: {END}"


def function(name, body):
    return f' .section .text.{name},"ax"\n .globl {name}\n .type {name},@function\n{name}:\n {body}\n .size {name},.-{name}\n'


def f(body):
    """A call roq_f that does this."""
    return function("roq_f", body)


def rows(*places):
    """A table of places to jump to."""
    words = "".join(f" .long {place}-.Ltable\n" for place in places)
    return f' .section .rodata.roq_f,"a"\n.Ltable:\n{words}'


def alone(body, name="f"):
    """A function that is called by roq_f."""
    return f(f"call {name}\n ret") + function(name, body)


# What it is, the code, the table of depths, and a part of the sentence.
REFUSED = [
    ("a call through a register", f("call *%rax\n ret"), {}, "through a register"),
    ("a call through memory", f("call *8(%rdi)\n ret"), {}, "through a register"),
    ("a jump through a register", f("jmp *%rax"), {}, "no table explains"),
    ("a jump through a table that is not read", f(" lea .Ltable(%rip),%rcx\n jmp *%rax\n1: ret") + rows("1b"), {}, "no table explains"),
    ("a table that goes to another function", f(TABLE + "1: ret") + function("g", "2: ret") + rows("2b"), {}, "jump to in g"),
    ("a frame by a register", f("sub %rax,%rsp\n add %rax,%rsp\n ret"), {}, "no constant"),
    ("a frame that is aligned", f("push %rbp\n mov %rsp,%rbp\n and $-32,%rsp\n mov %rbp,%rsp\n pop %rbp\n ret"), {}, "no constant"),
    ("a frame by leave", f("push %rbp\n mov %rsp,%rbp\n leave\n ret"), {}, "no constant"),
    ("a frame by xchg", f("xchg %rsp,%rax\n ret"), {}, "no constant"),
    ("a frame that is popped", f("pop %rsp\n ret"), {}, "no constant"),
    ("a frame that grows in a loop", f("1: push %rax\n dec %edi\n jne 1b\n add $8,%rsp\n ret"), {}, "two depths"),
    ("a return above its frame", f("push %rax\n ret"), {}, "returns with 8 bytes"),
    ("code that is not reached", f("ret\n push %rax\n ret"), {}, "is not reached"),
    ("code without an end", f("push %rax"), {}, "behind its last"),
    ("a function from elsewhere", f("call malloc\n ret"), {}, "malloc, which is not in the archive"),
    ("a jump to a function from elsewhere", f("jmp malloc"), {}, "malloc, which is not in the archive"),
    ("a function that calls itself", alone(OFTEN), {}, "f calls itself"),
    ("two functions that call each other", alone("call g\n ret") + function("g", "call f\n ret"), {}, "f calls g calls f"),
    ("a table of depths with a function that is gone", f("ret"), AGAIN, "there is no such function"),
    ("a table of depths with a function that ends", alone("ret"), AGAIN, "does not call itself"),
    ("no call", function("g", "ret"), {}, "there is no function roq_*"),
    ("a call above the limit", f("sub $0x4000,%rsp\n add $0x4000,%rsp\n ret"), {}, "more than 16,384"),
    ("a call above the limit by its turns", alone(OFTEN), {"f": (400, "")}, "more than 16,384"),
]
# What it is, the code, the table of depths, and the bytes of roq_f.
FOUND = [
    ("a return address", f("ret"), {}, 8),
    ("a frame", f(FRAME + END), {}, 8 + 8 + 32),
    ("a frame by lea", f("lea -0x20(%rsp),%rsp\n lea 0x20(%rsp),%rsp\n ret"), {}, 8 + 32),
    ("a frame of 128 bytes, which is added", f("add $-128,%rsp\n sub $-128,%rsp\n ret"), {}, 8 + 128),
    ("a frame on one of two ways", f(f"test %edi,%edi\n je 1f\n {FRAME + END}1: ret"), {}, 48),
    ("an argument that is pushed", f(f"{FRAME} push $7\n call memset\n add $8,%rsp\n {END}"), {}, 48 + 8 + 8 + 128),
    ("a red zone", f(f"{FRAME} mov %eax,-4(%rsp)\n {END}"), {}, 48 + 128),
    ("memcpy", f("call memcpy\n ret"), {}, 8 + 8 + 128),
    ("the larger of two calls", f("call f\n call g\n ret") + function("f", FRAME + END) + function("g", "ret"), {}, 8 + 48),
    ("a jump instead of a call", f("jmp f") + function("f", FRAME + END), {}, 48),
    ("four turns", alone(OFTEN), AGAIN, 8 + 4 * 48),
    ("a loop to its own begin", f("dec %edi\n jne roq_f\n ret"), {}, 8),
    ("a table of places", f(TABLE + f"1: ret\n2: {FRAME + END}") + rows("1b", "2b"), {}, 48),
]


def assembled(folder, text):
    """The object code of a text."""
    file = pathlib.Path(folder) / "tried.o"
    words = [os.environ.get("CC", "cc"), "-x", "assembler", "-c", "-", "-o", str(file)]
    run = subprocess.run(words, input=text, text=True, capture_output=True)
    if run.returncode:
        sys.exit(f"tools/stack: a test cannot be assembled: {run.stderr}")
    return file


def said(file, depths):
    """What is wrong with object code; nothing where it is not refused."""
    try:
        wrong = stack.above_limit(stack.calls_of(Stack(Code(file), depths)))
    except Refused as why:
        return str(why)
    return "\n".join(wrong)


def refused_figures():
    """Figures that contradict those worked out, each with a part of the sentence."""
    found, taken = {"roq_f": 48}, {"roq_f": 40}
    manual = "| call, stack | bytes at most |\n|---|---:|\n| `roq_f` | 1,040 |\n\n| call | x |\n| `roq_g` | 3 |\n"
    speed = "| call | copies | stack, bytes |\n|---|---|---|\n| `roq_f` | 0 | 1,041 | 3 | in |\n"
    yield "a manual", stack.wrong_manual({"roq_f": 1041}, stack.said_in_manual(manual)), "it says 1,040"
    yield "a manual without a call", stack.wrong_manual(found, {}), "no figure for roq_f"
    yield "a manual with a call too many", stack.wrong_manual({}, stack.said_in_manual(manual)), "does not export"
    yield "a measured figure", stack.wrong_measured(taken, {"roq_f": 41}, "this run"), "more than the 40"
    yield "SPEED.md", stack.wrong_measured(taken, stack.measured_in_speed(speed), stack.SPEED), "has 1,041"
    if list(stack.wrong_manual({"roq_f": 1040}, stack.said_in_manual(manual))):
        sys.exit("tools/stack: a manual that says what was worked out is refused")
    if list(stack.wrong_measured(taken, {"roq_f": 40}, "")):
        sys.exit("tools/stack: what was measured is refused, and is no more than what was worked out")


def refused():
    """Tries all of them; how many were refused."""
    figures = list(refused_figures())
    for what, wrong, part in figures:
        if not any(part in text for text in wrong):
            sys.exit(f"tools/stack: {what} that contradicts is not refused")
    with tempfile.TemporaryDirectory() as folder:
        for what, text, depths, part in REFUSED:
            wrong = said(assembled(folder, text), depths)
            if part not in wrong:
                sys.exit(f"tools/stack: {what} is not refused, or by other words: {wrong}")
        for what, text, depths, most in FOUND:
            found = Stack(Code(assembled(folder, text)), depths).bytes("roq_f")
            if found != most:
                sys.exit(f"tools/stack: {what} takes {most} bytes, and it finds {found}")
    return len(REFUSED) + len(figures)
