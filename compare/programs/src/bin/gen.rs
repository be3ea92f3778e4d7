//! Writes a random trace that aims: the same seed, count and profile give the same trace.
use programs::traces::{PROFILES, named};
use programs::usage;
use std::io::{self, Write};

const USAGE: &str = "\
usage: gen SEED CALLS PROFILE    a trace of CALLS answered lines, on standard output
       gen --list                the profiles and what each aims at
";

fn number(word: &str, what: &str) -> u64 {
    word.parse().unwrap_or_else(|_| usage::bad("gen", &format!("{what} `{word}` is no decimal number"), USAGE))
}

fn main() {
    let words = usage::words(USAGE);
    match words.iter().map(String::as_str).collect::<Vec<_>>()[..] {
        ["--list"] => {
            for profile in &PROFILES {
                println!("{:16} {}", profile.name, profile.aim);
            }
        }
        [seed, calls, name] => {
            let (seed, calls) = (number(seed, "SEED"), number(calls, "CALLS"));
            let Some(profile) = named(name) else {
                usage::bad("gen", &format!("PROFILE `{name}` is none of `gen --list`"), USAGE);
            };
            let mut out = io::BufWriter::new(io::stdout().lock());
            let mut failed = None;
            profile.write(seed, calls, |text| {
                failed = failed.take().or(out.write_all(text).err());
            });
            if let Some(error) = failed.or(out.flush().err()) {
                usage::fail("gen", &error.to_string());
            }
        }
        _ => usage::bad("gen", "SEED, CALLS and PROFILE are expected", USAGE),
    }
}
