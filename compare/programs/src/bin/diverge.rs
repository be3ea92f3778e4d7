//! Compares two lists of answers to one trace, and shows the shortest part of the trace that tells them apart.
use programs::answers_of::{Answered, same};
use programs::usage;
use std::{fs, process};

const USAGE: &str = "\
usage: diverge TRACE LEFT RIGHT
TRACE is a trace, LEFT and RIGHT are files of answers to it. Prints `equal` and the number of answers, or the
trace from its last `setup` to the first call that is answered differently, with both answers; status 1 then.
The text after `error: ` is free and not compared.
";

fn read(path: &str) -> Vec<u8> {
    fs::read(path).unwrap_or_else(|error| usage::fail("diverge", &format!("{path}: {error}")))
}

fn main() {
    let words = usage::words(USAGE);
    let [trace, left, right] = &words[..] else {
        usage::bad("diverge", "TRACE, LEFT and RIGHT are expected", USAGE);
    };
    let (trace, left, right) = (read(trace), read(left), read(right));
    let mut answered = Answered::new(&trace);
    let (mut lefts, mut rights) = (lines(&left), lines(&right));
    let mut count = 0u64;
    while let Some(line) = answered.next_call() {
        let (l, r) = (lefts.next(), rights.next());
        count += 1;
        if l.is_none() || !same(l, r) {
            println!("the answers differ at call {count}, line {} of the trace; from its setup on:", line + 1);
            for shown in answered.since_setup(line) {
                println!("{}", String::from_utf8_lossy(shown));
            }
            println!("left:  {}", text(l));
            println!("right: {}", text(r));
            process::exit(1);
        }
        answered.note(l);
    }
    if lefts.next().is_some() || rights.next().is_some() {
        println!("there are more answers than the {count} calls of the trace");
        process::exit(1);
    }
    println!("equal, {count} calls");
}

fn lines(bytes: &[u8]) -> impl Iterator<Item = &[u8]> {
    bytes.strip_suffix(b"\n").unwrap_or(bytes).split(|&b| b == b'\n').filter(move |_| !bytes.is_empty())
}

fn text(answer: Option<&[u8]>) -> String {
    answer.map_or("no answer".to_owned(), |line| String::from_utf8_lossy(line).into_owned())
}
