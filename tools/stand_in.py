#!/usr/bin/env python3
"""A stand-in for `replay` where nothing is proved: it counts lines, knows no window, and writes black pictures."""
import sys


def picture(width, height, name):
    try:
        with open(name, "wb") as file:
            file.write(b"P6\n%d %d\n255\n" % (width, height) + bytes(3 * width * height))
        return "0"
    except OSError:
        return "!"


for number, line in enumerate(sys.stdin, 1):
    match line.split():
        case ["picture", width, height, name]:
            answer = picture(int(width), int(height), name)
        case ["show", _]:
            answer = "3"
        case ["start", _]:
            answer = "0"
        case _:
            answer = f"? {number}"
    if line.strip() and not line.startswith("#"):
        print(answer, flush=True)
