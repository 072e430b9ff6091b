"""Times lines of call scripts on two programs `replay`: the one of today, and an earlier one."""

import resource
import subprocess
import sys
import tempfile

# Two windows, the smaller one above the larger, and nothing to pop.
SCENE = """start 1000
create
resize 0 20 20
show 0
create
resize 1 10 10
move 1 5 5
show 1
pop 0
pop 1
"""

# What is played, and how often.
LINES = (
    ("screen 40 25", 4000),
    ("pixels 0", 8000),
    ("mousedown 7 7 1\npop 1", 60000),
    ("keydown 5\npop 1", 60000),
    ("mousemove 7 7", 120000),
    ("visible 0", 60000),
    ("share 0", 100000),
    ("focus", 150000),
    ("window 0", 100000),
    ("session", 100000),
    ("fill 0 0 0 3 3 7", 80000),
    ("redraw 0 20 20", 60000),
    ("mark 0", 120000),
    ("contains 1 2 3 4 5 6", 150000),
    ("pieces 1 2 30 40 5 6 7 8", 100000),
    ("nonsense", 150000),
    ("sheet 0", 60000),
    ("hits 1 1 7 7 9 9", 80000),
)


def used():
    return resource.getrusage(resource.RUSAGE_CHILDREN).ru_utime


def seconds(program, script):
    """What a run takes of a processor: the least of five."""
    least = []
    for _ in range(5):
        script.seek(0)
        before = used()
        subprocess.run([program], stdin=script, stdout=subprocess.DEVNULL, check=True)
        least.append(used() - before)
    return min(least)


def times(programs, text):
    with tempfile.TemporaryFile("w+") as script:
        script.write(SCENE + text)
        script.flush()
        return [seconds(program, script) for program in programs]


def main(programs):
    starts = times(programs, "")
    print("line: ns, ns of the other, ratio")
    for line, count in LINES:
        ours, other = (1e9 * (all_of - start) / count for all_of, start in zip(times(programs, f"{line}\n" * count), starts))
        print(f"{line.replace(chr(10), ', ')}: {ours:.0f} {other:.0f} {ours / other:.2f}")


main(sys.argv[1:])
