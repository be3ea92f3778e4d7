//! Compares answers with expectations written by hand.
use programs::answers_of::{Answered, same};
use programs::usage;
use std::{fs, process};

const USAGE: &str = "\
usage: expect TRACE EXPECTED ANSWERS
A line of EXPECTED is an answer, whole; `xN ANSWER` stands for N of them; a line that ends in ` ..` names only
some of the answer's words, in any order. Blank lines and lines that begin with `#` are passed over.
Prints each line that differs; status 1 then.
";

/// One expected answer.
struct Expected<'a> {
    line: &'a str,
    /// Only some words are named.
    partial: bool,
}

impl Expected<'_> {
    fn is_met_by(&self, answer: &str) -> bool {
        if !self.partial {
            return same(Some(self.line.as_bytes()), Some(answer.as_bytes()));
        }
        let words: Vec<&str> = answer.split(' ').collect();
        // The number comes first and is always named.
        let mut named = self.line.split(' ');
        named.next() == words.first().copied() && named.all(|word| words.contains(&word))
    }
}

fn expectations(text: &str) -> Vec<Expected<'_>> {
    let mut all = Vec::new();
    for line in text.lines().filter(|line| !line.is_empty() && !line.starts_with('#')) {
        let (count, line) = match line.strip_prefix('x').and_then(|rest| rest.split_once(' ')) {
            Some((count, rest)) => match count.parse() {
                Ok(count) => (count, rest),
                Err(_) => usage::fail("expect", &format!("`x{count}` is no count, in: {line}")),
            },
            None => (1, line),
        };
        let (line, partial) = line.strip_suffix(" ..").map_or((line, false), |start| (start, true));
        all.extend((0..count).map(|_| Expected { line, partial }));
    }
    all
}

fn read(path: &str) -> String {
    fs::read_to_string(path).unwrap_or_else(|error| usage::fail("expect", &format!("{path}: {error}")))
}

fn main() {
    let words = usage::words(USAGE);
    let [trace, expected, answers] = &words[..] else {
        usage::bad("expect", "TRACE, EXPECTED and ANSWERS are expected", USAGE);
    };
    let (trace, expected_text, answers) = (read(trace), read(expected), read(answers));
    let all = expectations(&expected_text);
    let mut walked = Answered::new(trace.as_bytes());
    let given: Vec<&str> = answers.lines().collect();
    let mut wrong = 0;
    let mut count = 0;
    while let Some(line) = walked.next_call() {
        let answer = given.get(count).copied().unwrap_or("no answer");
        let met = all.get(count).is_some_and(|expected| expected.is_met_by(answer));
        if !met {
            wrong += 1;
            let text = all.get(count).map_or("nothing", |expected| expected.line);
            println!("{expected}: line {} of the trace, call {}:", line + 1, count + 1);
            println!("  call     {}", trace.lines().nth(line).unwrap_or_default());
            println!("  expected {text}");
            println!("  answered {answer}");
        }
        count += 1;
    }
    if all.len() != count || given.len() != count {
        println!("{expected}: {count} calls, {} expected answers, {} answers", all.len(), given.len());
        wrong += 1;
    }
    if wrong > 0 {
        process::exit(1);
    }
}
