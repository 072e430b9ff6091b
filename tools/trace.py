"""trace.py [--write | --test]: sees that docs/TRACE.md has a row for every sentence of the documents, and is right.

Documents 01 and 02 are in the folder ROQSHYN_DOCS, or else in ../shared/docs beside the repository; document 03 is
docs/ADDITIONS.md. Where they are at hand the quotations are compared with them, and target/trace.html is written: the
sentences themselves, each beside its links. Without them all else is checked. A line says what is wrong, and the status
is then 1. With --write the cells that are worked out are written anew first, and rows are made for new sentences.
"""
import os
import pathlib
import sys

import page
from matrix import DEMANDS, OURS, REQUESTS, SCOPE, TRACE, Matrix
from repository import ROOT, read_files

FOLDER = pathlib.Path(os.environ.get("ROQSHYN_DOCS") or ROOT.parent / "shared" / "docs")


def read_documents():
    """The documents by name, or nothing where they are not at hand."""
    if not all((FOLDER / name).is_file() for name in (SCOPE, REQUESTS)):
        if os.environ.get("ROQSHYN_DOCS"):
            sys.exit(f"tools/trace: ROQSHYN_DOCS is {FOLDER}, where there is no {SCOPE} or no {REQUESTS}")
        return {}
    found = [FOLDER / name for name in (DEMANDS, SCOPE, REQUESTS, OURS)]
    return {path.name: path.read_text() for path in found if path.is_file()}


def main(words):
    files, documents = read_files(), read_documents()
    if words == ["--write"]:
        files[TRACE] = Matrix(files, documents).write()
        (ROOT / TRACE).write_text(files[TRACE])
    matrix = Matrix(files, documents)
    rows = matrix.check()
    if documents:
        page.write(ROOT / "target" / "trace.html", matrix, rows)
    if matrix.wrong:
        print("\n".join(dict.fromkeys(matrix.wrong)))
        sys.exit(1)
    if words == ["--test"]:
        from trace_test import refused

        print(f"{refused(files, documents)} matrices refused")
    if matrix.missing:
        print(f"missing and known: {', '.join(matrix.missing)}")
    if not documents:
        print(f"left out: the quotations and the page, since documents 01 and 02 are not under {FOLDER}")
    print(f"{len(rows)} sentences, each with a row of {TRACE}{'; target/trace.html has them' if documents else ''}")


if __name__ == "__main__":
    main(sys.argv[1:])
