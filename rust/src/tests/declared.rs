//! Structs and parameters as the proved crates declare them: the text of both sides, word for word.
use crate::plain::{FLIGHT, HOST, LEFT, RECEIVED, RUNS};
use crate::FRAMES;
use std::collections::BTreeMap;
use std::fs;
use std::path::Path;

/// The declarations of a file by name, each its words with one space between them.
pub(super) type Declared = BTreeMap<String, String>;

fn proved(file: &str) -> String {
    let path = Path::new(env!("CARGO_MANIFEST_DIR")).join("../crates").join(file);
    fs::read_to_string(&path).unwrap_or_else(|error| panic!("{}: {error}", path.display()))
}

/// `text` without comments, its words with one space between them.
fn words(text: &str) -> String {
    let code = text.lines().map(|line| line.split("//").next().unwrap_or(""));
    code.flat_map(str::split_whitespace).collect::<Vec<_>>().join(" ")
}

/// Each part of `text` from `head` to `end`: the name that follows the head, and what stands between.
fn parts(text: &str, head: &str, end: &str) -> Declared {
    let mut all = Declared::new();
    for part in text.split(head).skip(1) {
        let part = part.split(end).next().unwrap_or("");
        let name: String = part.chars().take_while(|c| c.is_alphanumeric() || *c == '_').collect();
        all.insert(name.clone(), part[name.len()..].to_owned());
    }
    all
}

/// The fields of each struct, in order.
fn structs(text: &str) -> Declared {
    parts(&words(text).replace("pub(crate) struct", "pub struct"), "pub struct ", "}")
}

#[test]
fn the_structs_are_those_of_the_proved_crates() {
    let files = ["model/src/lib.rt", "queue/src/lib.rt", "ffi/src/lib.rt", "ffi/src/results.rt"];
    let more = ["ffi/src/notices.rt", "ffi/src/answers.rt", "ffi/src/line_figures.rt", "exports/src/new.rt"];
    let theirs: Declared = files.iter().chain(&more).flat_map(|file| structs(&proved(file))).collect();
    let mut ours = structs(include_str!("../plain.rs"));
    // The caller's own: the library is lent its fields one by one.
    assert!(ours.remove("Slots").is_some());
    assert_eq!(ours.len(), 14);
    for (name, fields) in &ours {
        assert_eq!(Some(fields), theirs.get(name), "{name}");
    }
}

/// A slice crosses as its pointer and its length.
fn as_exported(parameters: &str) -> String {
    parameters
        .replace("'a ", "")
        .replace("'b ", "")
        .replace("bytes: &[u8]", "bytes: *const u8, count: usize")
        .replace("out: &mut [u8]", "out: *mut u8, length: usize")
        .replace("starts: &[u64]", "starts: *const u64, starts_count: usize")
        .replace("ends: &[u64]", "ends: *const u64, ends_count: usize")
}

/// The parameters and the result of each function: `(...) -> ...`, without lifetimes.
fn signature(part: &str) -> String {
    let from = part.find('(').expect("parameters begin");
    part[from..].replace("( ", "(").replace(", )", ")").trim_end().to_owned()
}

/// The exported calls: parameters and result of each.
pub(super) fn exported() -> Declared {
    let modules = proved("exports/src/lib.rt");
    let mut all = Declared::new();
    for name in modules.lines().filter_map(|line| line.strip_prefix("pub mod ")?.strip_suffix(';')) {
        let text = words(&proved(&format!("exports/src/{name}.rt")));
        for (name, part) in parts(&text, "pub extern \"C\" fn ", " ensures {") {
            let part = part.split(" requires {").next().unwrap_or("");
            all.insert(name, as_exported(&signature(part)));
        }
    }
    all
}

/// The arrays' names of calls.rs, spelled out.
fn spelled(parameters: &str) -> String {
    let bytes = [("Flight", FLIGHT), ("Left", LEFT), ("Host", HOST), ("Received", RECEIVED)];
    let dates = [("GoneAt", FLIGHT), ("Runs", RUNS)];
    let bytes = bytes.map(|(name, length)| (name, format!("[u8; {length}]")));
    let dates = dates.map(|(name, length)| (name, format!("[u64; {length}]")));
    bytes.iter().chain(&dates).fold(parameters.to_owned(), |text, (name, array)| {
        text.replace(&format!("&{name},"), &format!("&{array},"))
            .replace(&format!("&mut {name},"), &format!("&mut {array},"))
    })
}

fn declared() -> Declared {
    let text = words(include_str!("../calls.rs"));
    let block = text.split("extern \"C\" {").nth(1).and_then(|rest| rest.split('}').next()).expect("there is a block");
    parts(block, "fn ", ";").into_iter().map(|(name, part)| (name, spelled(&signature(&part)))).collect()
}

#[test]
fn the_parameters_are_those_of_the_proved_crates() {
    let (theirs, ours) = (exported(), declared());
    // Fifteen calls, and the version.
    assert_eq!(ours.len(), 16);
    for (name, signature) in &ours {
        assert_eq!(Some(signature), theirs.get(name), "{name}");
    }
    assert_eq!(ours.len(), theirs.len());
}

#[test]
fn the_longest_list_is_that_of_the_proved_crate() {
    let line = format!("pub const FRAMES: usize = {FRAMES};");
    assert!(proved("figures/src/frames.rt").contains(&line), "the proved crate lacks: {line}");
}
