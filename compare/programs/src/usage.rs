//! The words after a program's name: `--help` on standard output, bad usage on standard error.
use std::{env, process};

/// The words, unless the first is `--help`, which prints `usage` and ends well.
#[must_use]
pub fn words(usage: &str) -> Vec<String> {
    let words: Vec<String> = env::args().skip(1).collect();
    if words.first().is_some_and(|word| word == "--help" || word == "-h") {
        print!("{usage}");
        process::exit(0);
    }
    words
}

/// Ends the program: the words are not what `usage` says.
pub fn bad(program: &str, reason: &str, usage: &str) -> ! {
    eprintln!("{program}: {reason}");
    eprint!("{usage}");
    process::exit(2);
}

/// Ends the program: it cannot go on.
pub fn fail(program: &str, reason: &str) -> ! {
    eprintln!("{program}: {reason}");
    process::exit(1);
}
