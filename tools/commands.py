"""commands.py [--test]: sees that every command has --help, and is named in a document.

A command is a file that begins as a script of bash. Its help is its head comment, which begins with its name.
"""
import pathlib
import subprocess
import sys

ROOT = pathlib.Path(__file__).resolve().parent.parent
FIRST = b"#!/usr/bin/env bash\n"
DOCUMENTS = "docs/COMMANDS.md", "compare/README.md"


def commands(root=ROOT):
    """Their names, from the repository's root."""
    tops = [top for top in root.iterdir() if top.name not in ("target", ".git", "crates")]
    paths = [path for top in tops for path in (top.glob("**/*") if top.is_dir() else [top])]
    found = [path for path in paths if path.is_file() and not path.suffix and path.read_bytes().startswith(FIRST)]
    return sorted(str(path.relative_to(root)) for path in found)


def wrong_help(root, name):
    """What is wrong with the help of a command, called from another folder."""
    asked = subprocess.run(["bash", root / name, "--help"], cwd="/", capture_output=True, text=True)
    if asked.returncode or asked.stderr:
        return f"{name}: --help ends with {asked.returncode}: {asked.stderr}"
    if name not in asked.stdout.partition(":")[0]:
        return f"{name}: its help does not begin with its name: {asked.stdout[:80]}"
    return None


def wrong(root=ROOT):
    """All that is wrong."""
    said = "".join((root / name).read_text() for name in DOCUMENTS)
    for name in commands(root):
        if fault := wrong_help(root, name):
            yield fault
        if name not in said:
            yield f"{name}: neither {' nor '.join(DOCUMENTS)} names it"


def main(words):
    said = list(wrong())
    if said:
        print("\n".join(said))
        sys.exit(1)
    if words == ["--test"]:
        from commands_test import tried

        print(f"{tried()} answers of commands are as they should be")
    print(f"{len(commands())} commands have --help and are named in a document")


if __name__ == "__main__":
    main(sys.argv[1:])
