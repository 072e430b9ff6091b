//! The bindings beside the header: its public structs, by name and type, every question, in words, the names of the
//! answers, its numbers and its version. Also the questions of docs/CALL-SCRIPT.md.
#[allow(dead_code)]
#[path = "../build/header.rs"]
mod header;

use roqshyn::{
    version, Error, Hit, Pos, Session, MOST_DISPLAYS, MOST_POINTS, MOST_READ, MOST_RECTS, MOST_SHEET, WINDOWS,
};
use std::fs;

fn read(file: &str) -> String {
    let path = format!("{}/{file}", env!("CARGO_MANIFEST_DIR"));
    fs::read_to_string(&path).unwrap_or_else(|e| panic!("{path}: {e}"))
}

/// Between the first `from` and the next `to`.
fn between<'a>(text: &'a str, from: &str, to: &str) -> &'a str {
    let rest = &text[text.find(from).unwrap_or_else(|| panic!("no {from}")) + from.len()..];
    &rest[..rest.find(to).unwrap_or_else(|| panic!("no {to}"))]
}

/// The structs of the header that programs use as they are, and those of the bindings. The others are made of it.
#[test]
fn structs() {
    let code = header::code(&read("../../include/roqshyn.h"));
    let public = |(name, _): &(String, Vec<String>)| header::PUBLIC.contains(&name.as_str());
    let of_header: Vec<_> = header::structs(&code).into_iter().filter(public).collect();
    let text = read("src/rect.rs");
    let parts = |declared: &str| {
        let fields = between(declared, "{", "}").split(',').filter_map(|f| f.trim().strip_prefix("pub "));
        (between(declared, "pub struct ", " {").to_string(), fields.map(String::from).collect())
    };
    let of_bindings: Vec<(String, Vec<String>)> = text.split("#[repr(C)]").skip(1).map(parts).collect();
    assert_eq!(of_bindings, of_header);
}

fn known() -> Vec<(u32, String)> {
    Error::ALL.iter().map(|e| (e.number(), e.question().to_string())).collect()
}

#[test]
fn questions_of_the_header() {
    let header = read("../../include/roqshyn.h");
    let table = between(&header, "in their order:", "Sessions.");
    let words: Vec<&str> =
        table.split("  ").map(|w| w.trim_matches([' ', '*', '\n'])).filter(|w| !w.is_empty()).collect();
    let mut said: Vec<(u32, String)> =
        words.chunks(2).map(|row| (row[0].parse().expect("a number"), row[1].to_string())).collect();
    said.sort();
    assert_eq!(known(), said);
}

/// `QueueFull` is `QUEUE_FULL`.
fn in_capitals(name: &str) -> String {
    let mut capitals = String::new();
    for letter in name.chars() {
        if letter.is_uppercase() && !capitals.is_empty() {
            capitals.push('_');
        }
        capitals.extend(letter.to_uppercase());
    }
    capitals
}

#[test]
fn names_of_answers() {
    let row = |line: &str| {
        let (name, number) = line.trim().strip_prefix("ROQ_ERROR_")?.trim_end_matches(',').split_once(" = ")?;
        Some((number.parse().ok()?, name.to_string()))
    };
    let said: Vec<(u32, String)> = read("../../include/roqshyn.h").lines().filter_map(row).collect();
    let names: Vec<_> = Error::ALL.iter().map(|e| (e.number(), in_capitals(&format!("{e:?}")))).collect();
    assert_eq!(names, said);
}

/// The number that a macro stands for.
fn macro_of_header(name: &str) -> usize {
    let value = |line: &str| line.strip_prefix("#define ")?.strip_prefix(name)?.trim().parse().ok();
    read("../../include/roqshyn.h").lines().find_map(value).unwrap_or_else(|| panic!("no {name}"))
}

/// A rectangle is four numbers in C, a point two, and what lies under it three.
#[test]
fn numbers() {
    let known = [
        ("ROQ_WINDOWS", WINDOWS),
        ("ROQ_DISPLAYS", MOST_DISPLAYS),
        ("ROQ_VISIBLE_LEN", 4 * MOST_RECTS),
        ("ROQ_SHEET_LEN", MOST_SHEET),
        ("ROQ_READ_SHEET_LEN", 4 * MOST_READ),
        ("ROQ_POINTS_LEN", 2 * MOST_POINTS),
        ("ROQ_HITS_LEN", 3 * MOST_POINTS),
        ("ROQ_SESSION_SIZE", size_of::<Session>()),
    ];
    for (name, number) in known {
        assert_eq!(macro_of_header(name), number, "{name}");
    }
    let most = macro_of_header("ROQ_PIXELS") as u32;
    assert!(Session::start(most).is_ok() && Session::start(most + 1).err() == Some(Error::Capacity));
}

#[test]
fn nobody() {
    let mut answers = [Hit::default()];
    let session = Session::start(1).expect("C is 1");
    let hits = session.hits(&[Pos::new(0, 0)], &mut answers).expect("a point");
    assert_eq!((hits[0].window as usize, hits[0].id()), (macro_of_header("ROQ_NOBODY"), None));
}

#[test]
fn versions() {
    let [major, minor, patch] = ["MAJOR", "MINOR", "PATCH"].map(|part| macro_of_header(&format!("ROQ_VERSION_{part}")));
    assert_eq!(env!("CARGO_PKG_VERSION"), format!("{major}.{minor}.{patch}"));
    assert_eq!(version() as usize, major * 1_000_000 + minor * 1_000 + patch);
}

#[test]
fn questions_of_call_scripts() {
    let page = read("../../docs/CALL-SCRIPT.md");
    let table = between(&page, "| answer |", "Events:").replace('×', "x");
    let row = |line: &str| {
        let (number, words) = line.strip_prefix("| ")?.strip_suffix(" |")?.split_once(" | ")?;
        Some((number.parse().ok()?, words.to_string()))
    };
    assert_eq!(known(), table.lines().filter_map(row).collect::<Vec<_>>());
}
