"""How many instructions each exported call takes: instructions.py COUNTED HEADER RECORDED [--record]

COUNTED is what callgrind wrote of bench/instructions.c, in which each row is a function that makes one call: the row's
count is that of the call with all that it calls. Printed is a line `row instructions` for each row, and what differs
from the file RECORDED. It fails where a count is more than a tenth above the recorded one, where a row is not recorded
or a recorded one is not counted, and where a call of HEADER has no row. With --record it writes that file instead.
"""
import re
import sys


def counted(path):
    """The instructions of each row: it is named by the exported call, and behind a colon by what sets it apart."""
    counts, row, callee = {}, None, None
    with open(path) as file:
        lines = [line.rstrip("\n") for line in file]
    for line, cost in zip(lines, lines[1:]):
        if line.startswith("fn="):
            row = re.fullmatch(r"fn=row_(roq_\w+)", line)
        elif line.startswith("cfn="):
            callee = line.removeprefix("cfn=")
        elif row and line.startswith("calls=") and callee.startswith("roq_"):
            what = row[1].removeprefix(callee).replace("_", ":", 1)
            counts[callee + what] = int(cost.split()[1])
    return dict(sorted(counts.items()))


def exported(path):
    """The calls that a header declares."""
    with open(path) as file:
        code = re.sub(r"/\*.*?\*/", "", file.read(), flags=re.DOTALL)
    return set(re.findall(r"\b(roq_\w+)\(", code))


def read(path):
    with open(path) as file:
        return {row: int(count) for row, count in (line.split() for line in file)}


def differences(counts, recorded, path):
    """For each row that is not as recorded, whether it fails, and a sentence."""
    for row in sorted(recorded | counts):
        now, before = counts.get(row), recorded.get(row)
        if before is None:
            yield True, f"{row} is not in {path}"
        elif now is None:
            yield True, f"{row} is in {path} and was not counted"
        elif now != before:
            much = 10 * now > 11 * before
            change = f"{row} takes {now} instructions, and {before} are recorded"
            yield much, f"{change}: more than a tenth above" if much else change


def main(counted_path, header, path, record=None):
    counts = counted(counted_path)
    without = exported(header) - {row.partition(":")[0] for row in counts}
    if without:
        sys.exit(f"bench/instructions.c has no row for {', '.join(sorted(without))}")
    table = "".join(f"{row} {count}\n" for row, count in counts.items())
    if record:
        with open(path, "w") as file:
            file.write(table)
        return
    print(table, end="")
    found = list(differences(counts, read(path), path))
    for _, sentence in found:
        print(sentence, file=sys.stderr)
    sys.exit(any(fails for fails, _ in found))


main(*sys.argv[1:])
