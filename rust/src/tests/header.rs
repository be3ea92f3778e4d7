//! The C header declares the calls as the proved crates do: the same parameters in the same order.
use super::declared::exported;
use crate::plain::PlainNotice;
use crate::report::FEATURES;
use crate::{Notice, Refusal};

/// A type of Rust, and a name of it, as C writes them.
fn in_c(name: &str, of: &str) -> String {
    let array = |of: &str| if of.starts_with("[u64") { "uint64_t *" } else { "uint8_t *" };
    let written = match of {
        "u32" => "uint32_t ",
        "u64" => "uint64_t ",
        "usize" => "size_t ",
        "bool" => "bool ",
        "PlainCore" => "struct wondraxu_core ",
        "PlainAnswer" => "struct wondraxu_answer ",
        "PlainRowAnswer" => "struct wondraxu_row_answer ",
        "PlainReply" => "struct wondraxu_reply ",
        "PlainFigures" => "struct wondraxu_line_figures ",
        "PlainNew" => "struct wondraxu_set_up ",
        "Sixteen" => "struct wondraxu_sixteen ",
        "*const u8" => "const uint8_t *",
        "*const u64" => "const uint64_t *",
        "*mut u8" => "uint8_t *",
        _ if of.starts_with("&mut [") => array(&of[5..]),
        _ if of.starts_with("&[") => return format!("const {}{name}", array(&of[1..])),
        _ => panic!("{of} has no form in C here"),
    };
    format!("{written}{name}")
}

/// `(NAME: TYPE, ..) -> RESULT` of a function as its declaration in C.
fn prototype(name: &str, signature: &str) -> String {
    let (parameters, result) = signature.trim_start_matches('(').split_once(") -> ").expect("there is a result");
    let parameters: Vec<String> = parameters
        .split(", ")
        .map(|parameter| parameter.split_once(": ").map_or_else(|| "void".to_owned(), |(name, of)| in_c(name, of)))
        .collect();
    format!("{}({});", in_c(name, result), parameters.join(", "))
}

#[test]
fn the_header_declares_the_same_calls() {
    let header: Vec<&str> = include_str!("../../include/wondraxu.h").split_whitespace().collect();
    let header = header.join(" ");
    for (name, signature) in exported() {
        let prototype = prototype(&name, &signature);
        assert!(header.contains(&prototype), "the header lacks: {prototype}");
    }
}

#[track_caller]
fn has(line: &str) {
    assert!(include_str!("../../include/wondraxu.h").contains(line), "the header lacks: {line}");
}

#[test]
fn the_header_has_the_same_lengths() {
    use crate::plain::{FLIGHT, HOST, LEFT, RECEIVED, RUNS};
    let lengths = [("FLIGHT", FLIGHT), ("LEFT", LEFT), ("HOST", HOST), ("RUNS", RUNS), ("RECEIVED", RECEIVED)];
    for (name, length) in lengths {
        has(&format!("#define WONDRAXU_{name} {length} "));
    }
    has(&format!("#define WONDRAXU_FRAMES {}\n", crate::FRAMES));
}

/// The names of the numbers, of the notices and of the modes, each with its number as the crate has it.
#[test]
fn the_header_has_the_same_numbers() {
    for number in 1..=9 {
        let refusal = Refusal::of(number).expect_err("a number above 0 is a refusal");
        has(&format!("    WONDRAXU_{} = {number}", upper(&format!("{refusal:?}"))));
    }
    for what in 1..=5 {
        let notice = format!("{:?}", Notice::of(PlainNotice { what, which: 0 }));
        has(&format!("    WONDRAXU_{} = {what}", upper(notice.split('(').next().unwrap_or(""))));
    }
    for (number, mode) in FEATURES.iter().enumerate() {
        has(&format!("    WONDRAXU_{} = {number}", upper(&format!("{mode:?}"))));
    }
}

/// `RunsFull` as `RUNS_FULL`.
fn upper(name: &str) -> String {
    let mut upper = String::new();
    for (place, letter) in name.char_indices() {
        if place > 0 && letter.is_uppercase() {
            upper.push('_');
        }
        upper.push(letter.to_ascii_uppercase());
    }
    upper
}
