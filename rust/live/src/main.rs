//! Fresh random calls of all profiles on the port and on the published Rust in its box, in one process: each answer of the
//! one is held to that of the other.
mod compare;
mod line;
mod port;
mod published;
#[cfg(test)]
mod tests;

use compare::{Comparison, Difference};
use port::Port;
use programs::traces::{PROFILES, Profile};
use programs::usage;
use published::Published;
use std::process;
use uart_box::calls::Call;

const USAGE: &str = "\
usage: live SEED CALLS
CALLS in all, shared among the profiles of compare/'s `gen --list`; lines that are no calls are passed over. Prints the
seed, the calls and `equal`; or, for the first profile that differs, the calls from its set-up to the first different
answer, with both answers, and status 1.
";

/// What answers a call with its line of the replay format, line feed included.
pub trait Side {
    fn call(&mut self, call: &Call, out: &mut Vec<u8>);
}

/// One profile's calls: how many were compared.
fn compare(profile: &Profile, seed: u64, calls: u64) -> Result<u64, Difference> {
    let mut comparison = Comparison::new(Port::default(), Published::default());
    let mut compared = Ok(());
    profile.write(seed, calls, |text| {
        if compared.is_ok() {
            compared = comparison.lines(text);
        }
    });
    compared.map(|()| comparison.calls)
}

fn show(seed: u64, profile: &Profile, difference: &Difference) {
    println!("seed {seed}: profile {}: different", profile.name);
    for line in &difference.trace {
        println!("{line}");
    }
    println!("port:      {}", difference.port);
    println!("published: {}", difference.published);
}

/// `each` calls of every profile: how many were compared. The first difference ends the program.
fn all_profiles(seed: u64, each: u64) -> u64 {
    PROFILES
        .iter()
        .map(|profile| {
            compare(profile, seed, each).unwrap_or_else(|difference| {
                show(seed, profile, &difference);
                process::exit(1)
            })
        })
        .sum()
}

fn number(word: &str, what: &str) -> u64 {
    word.parse().unwrap_or_else(|_| usage::bad("live", &format!("{what} `{word}` is no decimal number"), USAGE))
}

fn main() {
    let words = usage::words(USAGE);
    let [seed, calls] = &words[..] else {
        usage::bad("live", "SEED and CALLS are expected", USAGE);
    };
    let (seed, calls) = (number(seed, "SEED"), number(calls, "CALLS"));
    let mut total = 0;
    // Lines that are no calls do not count: further rounds, with seeds of their own, make up for them.
    for round in 0.. {
        if total >= calls {
            break;
        }
        total += all_profiles(seed.wrapping_add(round), (calls - total).div_ceil(PROFILES.len() as u64));
    }
    println!("seed {seed}: {total} calls over {} profiles, equal", PROFILES.len());
}
