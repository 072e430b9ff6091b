//! Lines that make no call: passed over, malformed, or above the program's limits; and two that only look so.

#[rustfmt::skip]
pub const NO_CALLS: [&str; 112] = [
    "", "#", "# show 0", " ", "   ", " #", "Create", "create 0", "create\t", "show", "show 1 2", "show -1", "show +1",
    "show 1.0", "show 0x1", "show 4294967296", "show 00000000000000000000000018", "  show   16  ", "move 0 0",
    "redraw 2 4 4", "redraw 1 4", "mousedown 0 0 256", "mouseclick 0 0 0 256", "mouseup 0 0", "keydown",
    "keydown 1 2", "resized 0", "focus 0", "blit 0 0 0 1 1", "set-scanline 1 1 0 0 1 2 7", "scanline 1 1 0 0",
    "region 0 0 1 1", "intersect 0 0 1 1 0 0 1", "within 0 0 1 1 1", "start", "start 384001", "start 1048576",
    "lend 6144001", "lend-screen 3072001", "lend-list 7813", "screen 3072001 1", "screen 65536 65536",
    "redraw 0 6400 481", "redraw 0 4294967295 4294967295", "picture 6400 481 a.ppm", "picture 1 1 .a",
    "picture 1 1 a/b", "picture 1 1", "picture 1 x a", "pieces 0 0 1 1 0 0 1 1 1", "lend", "screen 1", "pixels",
    "\u{e4}", "?", "!", "begin", "begin 2", "begin 0 0", "portion 4", "portion 1 4 4", "portion 6400 481",
    "share", "share 1 2", "share -1", "hits -1", "hits 1 2 x", "hits 1 4294967296", "dim", "dim 2", "dim 0 0",
    "layer", "layer 0", "layer 0 0 0", "display", "display 0 0 1", "display 0 0 1 1 1", "display-at", "display-at 1",
    "display-at 1 1 1", "maximise", "maximise 0 0", "update-dims 0", "sheet", "sheet 0 0", "sheet -1", "lend-sheet",
    "lend-sheet 2049", "lend-sheet 1 1", "read-sheet 256", "read-sheet 0 -1", "read-sheet 4294967296", "raise",
    "raise 0 0", "drag", "drag 0 0", "drag 0 0 0 0", "stale", "stale 0 0 0 1", "stale 0 0 0 1 1 1", "stale -1 0 0 1 1",
    "waiting 0", "window", "window 0 0", "window -1", "session 0",
    "who", "who 1 0 0 0", "who 0 0 0 0 0", "who 10 0 0 0 0", "who 1 0 0 256 0", "who 2 0 0 0 256",
];
