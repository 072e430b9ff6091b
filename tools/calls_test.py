"""Edits that calls.py has to refuse, and some that it must not, each made on a copy of the files in memory."""
import sys

from calls import PROMISES, check

CALL = "crates/windows/src/calls.rt"
STATION = "crates/roqshyn/src/calls.rt"
RATE = "crates/busiest/src/lib.rt"
GROUP = "crates/windows/src/lib.rt"
SHOW = "    pub fn show(&mut self, id: WinId) -> Result<(), Refusal>\n        requires { Given self.old }\n"
ROQ = 'pub extern "C" fn roq_show(s: &mut Session, id: WinId) -> u32\n    requires { Given s.old }\n'
METHOD = "impl Session { pub fn peek(self) -> u32 ensures { result ≡ 0 } { 0 } }\n"
FUNCTION = "pub fn peek() -> u32 ensures { result ≡ 0 } { 0 }\n"

# What is edited: a file, what stands in it ("" is its end), and what is put there. Then the line that has to be printed.
REFUSED = [
    (
        "a new function without a contract",
        [(RATE, "", "pub fn peek() -> u32 {\n    0\n}\n")],
        "busiest::peek: has no ensures",
    ),
    ("a new function that no table has", [(RATE, "", FUNCTION)], "busiest::peek stands in no table"),
    (
        "a new constant function",
        [(RATE, "", FUNCTION.replace("pub fn", "pub const fn"))],
        "busiest::peek stands in no table",
    ),
    (
        "a premise widened",
        [(CALL, SHOW, SHOW.replace("old }", "old × (id.0 < 16) }"))],
        "windows::Session::show: requires",
    ),
    (
        "a second premise",
        [(CALL, SHOW, SHOW + "        requires { id.0 < 16 }\n")],
        "windows::Session::show: requires",
    ),
    (
        "an exported premise widened",
        [(STATION, ROQ, ROQ.replace("old }", "old × (id.0 < 16) }"))],
        "roqshyn::roq_show: requires",
    ),
    (
        "a premise of a call without a session",
        [
            (
                RATE,
                "-> Result<Second, Refusal>\n    ensures { second_of result ≡ busiest",
                "-> Result<Second, Refusal>\n    requires { Given times }\n    ensures { second_of result ≡ busiest",
            ),
        ],
        "it has no session",
    ),
    ("another Given", [(CALL, "View.{", "Other.{")], "`Given` is not the one of"),
    ("Given as another name", [(CALL, "Given", "Rep as Given")], "`Given` is not the one of"),
    ("another now", [(STATION, "ghost use ", "ghost use Rattle.rules.specs.Calls.{now};\nghost use ")], "`now` is brought in"),
    (
        "an ensures removed",
        [(RATE, "    ensures { second_of result ≡ busiest times.now }\n", "")],
        "busiest::busiest: has no ensures",
    ),
    (
        "an ensures made a comment",
        [(RATE, "    ensures { second_of result ≡ busiest", "    // ensures { second_of result ≡ busiest")],
        "busiest::busiest: has no ensures",
    ),
    (
        "an ensures that says nothing of the result",
        [(RATE, "second_of result ≡ busiest times.now", "0 ≡ 0")],
        "does not name what it hands back",
    ),
    (
        "the same in a comment",
        [(RATE, "second_of result ≡ busiest times.now", "0 ≡ 0 -- result\n")],
        "does not name what it hands back",
    ),
    (
        "lent pixels left open",
        [("crates/winbuf/src/lib.rt", " (altered_of result) pixels.new }", " (altered_of result) pixels.old }")],
        "does not say what pixels holds",
    ),
    (
        "an impl of Session in a new file",
        [(GROUP, "mod calls;", "mod calls;\nmod peek;"), ("crates/windows/src/peek.rt", "", METHOD)],
        "windows::Session::peek stands in no",
    ),
    (
        "an impl of Session in inner",
        [("crates/windows/src/inner/dimming.rt", "", METHOD)],
        "windows::Session::peek stands in no",
    ),
    (
        "an impl of a call's type in inner",
        [("crates/geom/src/inner.rt", "", METHOD.replace("Session", "Rect"))],
        "geom::Rect::peek stands in no",
    ),
    (
        "an impl by another name",
        [("crates/windows/src/inner/dimming.rt", "use crate::Shared;", "use crate::Session as Shared;")],
        "use … as …",
    ),
    (
        "a type by another name",
        [("crates/windows/src/inner/dimming.rt", "", "type Kept = Session;\n")],
        "a type by another name would hide",
    ),
    ("a public module", [(GROUP, "mod calls;", "pub mod calls;")], "pub mod calls: a crate that has calls"),
    (
        "a public module in the file",
        [(RATE, "", "pub mod more {\n" + FUNCTION + "}\n")],
        "busiest::peek stands in no table",
    ),
    ("a name handed on", [(GROUP, "mod calls;", "mod calls;\npub use inner::one::mark;")], "pub use:"),
    (
        "an exported function of another crate",
        [("crates/order/src/lib.rt", "", "#[unsafe(no_mangle)]\n" + FUNCTION)],
        "order::peek stands in no table",
    ),
    ("a file that no mod names", [("crates/busiest/src/more.rt", "", FUNCTION)], "no `mod` names this file"),
    (
        "a new crate",
        [("crates.txt", "", "more: geom\n"), ("crates/more/src/lib.rt", "", FUNCTION)],
        "crate more is in neither list",
    ),
    ("a form that is not known", [(RATE, "", '#[path = "more.rs"]\nmod more;\n')], "the attribute 'path'"),
    (
        "an item in a body",
        [(CALL, "let at = slot(id);", "impl Session { pub fn peek(self) -> u32 { 0 } }")],
        "an item in the body of show",
    ),
    ("a row removed", [(PROMISES, "| `mark(id)` |", "| mark |")], "windows::Session::mark stands in no table"),
    ("a row of no call", [(PROMISES, "| `mark(id)` |", "| `mark(id)`, `unmark(id)` |")], "`unmark` is no public call"),
    ("a call in two rows", [(PROMISES, "| `mark(id)` |", "| `mark(id)`, `show(id)` |")], "`show` stands in line"),
    ("an exported call removed", [(PROMISES, "| `roq_maximise` |", "| |")], "roqshyn::roq_maximise stands in no table"),
    (
        "an exported call that is none of the calls",
        [(PROMISES, "| `move_window` |", "| `shift_window` |")],
        "`shift_window`, which is no public call",
    ),
]
PASSED = [
    ("a call in a comment", [(RATE, "", "/* pub fn peek() -> u32 { /* a */ 0 } */\n// pub fn peek() -> u32 { 0 }\n")]),
    ("a private function", [(RATE, "", "pub(crate) " + FUNCTION.removeprefix("pub "))]),
    ("a public function in a private module", [(RATE, "", "mod more {\n" + FUNCTION + "}\n")]),
    ("a public function in inner", [(RATE, "", "pub mod inner {\n" + FUNCTION + "}\n")]),
    ("a premise that is left out", [(CALL, SHOW, SHOW.partition("\n")[0] + "\n")]),
]


def edited(files, edits):
    """The files with the first place of each edit changed."""
    files = dict(files)
    for path, old, new in edits:
        text = files.get(path, "")
        if old not in text:
            sys.exit(f"tools/calls: the test has an edit of {path}, where this is no more: {old}")
        files[path] = text.replace(old, new, 1) if old else text + new
    return files


def refused(files):
    """How many edits are refused; it ends where one is not, or where a harmless one is."""
    for what, edits, line in REFUSED:
        if not any(line in text for text in check(edited(files, edits))[1]):
            sys.exit(f"tools/calls: {what} is not refused")
    for what, edits in PASSED:
        for text in check(edited(files, edits))[1]:
            sys.exit(f"tools/calls: {what} is refused: {text}")
    return len(REFUSED)
