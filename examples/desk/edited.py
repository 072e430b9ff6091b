"""edited.py EDIT FOLDER: writes the edited file of the desk to the folder, with one line changed as the edit says; the
line has to be there once. It prints how the desk has to fail: by mouse or by finger, the file without .c, the shot."""
import sys
from pathlib import Path

edit, folder = map(Path, sys.argv[1:])
fields = dict(line.split(": ", 1) for line in edit.read_text().splitlines() if not line.startswith("#"))
source = (Path(__file__).parent / fields["file"]).read_text()
if source.count(f"\n{fields['old']}\n") != 1:
    sys.exit(f"{edit}: the line is not there once")
(folder / fields["file"]).write_text(source.replace(f"\n{fields['old']}\n", f"\n{fields['new']}\n"))
print(fields.get("by", "finger"), Path(fields["file"]).stem, fields["fails"])
