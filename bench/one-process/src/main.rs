//! Two workloads on both sides in one process: the mixed one of `crates/bench_mixed`, and a row in bulk. Each side's work is a
//! function of its own, which callgrind counts; both sides must give the same sum.
mod side;

use side::{Port, Published, Side};
use std::time::Instant;

const FIFO: u32 = 0;
const INT_ST: u32 = 8;
const INT_ENA: u32 = 12;
const INT_CLR: u32 = 16;
const STATUS: u32 = 24;
const CONF1: u32 = 36;
const USAGE: &str =
    "usage: one-process ROUNDS    both workloads ROUNDS times on each side; prints counts, sums and nanoseconds\n";

#[derive(Default, PartialEq, Eq)]
struct Tally {
    sum: u64,
    calls: u64,
}

impl Tally {
    fn add(&mut self, value: u64) {
        self.sum = (self.sum % 1_000_000_007) * 3 + value % 1_000_000_007;
    }
}

fn look(side: &mut impl Side, tally: &mut Tally, now: u64, offset: u32) -> u32 {
    tally.calls += 1;
    let value = side.read(now, offset);
    tally.add(u64::from(value));
    value
}

fn put(side: &mut impl Side, tally: &mut Tally, now: u64, offset: u32, value: u32) {
    tally.calls += 1;
    side.write(now, offset, value);
}

/// Firmware sends a row of 16 bytes, a host answers, a handler reads what came, a console takes what was sent.
fn round(side: &mut impl Side, tally: &mut Tally, base: u64) {
    for i in 0..16 {
        look(side, tally, base + i * 10, STATUS);
        put(side, tally, base + i * 10, FIFO, i as u32 + 32);
    }
    side.receive(base + 200, base + 300, b"basket 7, row 12");
    for i in 0..20 {
        let now = base + 300 + i * 420;
        side.wake(now);
        tally.calls += 1;
        let raised = look(side, tally, now, INT_ST);
        if look(side, tally, now, STATUS) & 0x3FF != 0 {
            look(side, tally, now, FIFO);
        }
        put(side, tally, now, INT_CLR, raised);
    }
    tally.add(side.take_tx(base + 9000) as u64);
    tally.add(side.host_pending() as u64);
    tally.add(u64::from(side.has_left()));
    tally.calls += 4;
}

fn mixed(mut side: impl Side, rounds: u64) -> Tally {
    let mut tally = Tally::default();
    put(&mut side, &mut tally, 0, INT_ENA, 0x4113);
    put(&mut side, &mut tally, 0, CONF1, 0x0020_C001);
    for row in 0..rounds {
        round(&mut side, &mut tally, row * 20_000 + 1000);
    }
    tally
}

/// 1,000 host bytes land in one wake, 128 of them stored; the FIFO is then read out. Counted in bytes.
fn bulk(mut side: impl Side, rounds: u64) -> Tally {
    let mut tally = Tally::default();
    for row in 0..rounds {
        let base = row * 1_000_000;
        side.receive(base, base, &[0x55; 1000]);
        tally.add(side.wake(base + 500_000));
        tally.calls += 1000;
        for _ in 0..128 {
            tally.add(u64::from(side.read(base + 500_000, FIFO)));
        }
    }
    tally
}

#[inline(never)]
fn port_mixed(rounds: u64) -> Tally {
    mixed(Port::new(), rounds)
}

#[inline(never)]
fn published_mixed(rounds: u64) -> Tally {
    mixed(Published::new(), rounds)
}

#[inline(never)]
fn port_bulk(rounds: u64) -> Tally {
    bulk(Port::new(), rounds)
}

#[inline(never)]
fn published_bulk(rounds: u64) -> Tally {
    bulk(Published::new(), rounds)
}

fn timed(work: fn(u64) -> Tally, rounds: u64) -> (Tally, f64) {
    let began = Instant::now();
    let tally = work(rounds);
    let nanoseconds = began.elapsed().as_nanos() as f64;
    let each = nanoseconds / tally.calls as f64;
    (tally, each)
}

fn main() {
    let words: Vec<String> = std::env::args().skip(1).collect();
    let rounds = match words.as_slice() {
        [rounds] => rounds.parse().ok(),
        _ => None,
    };
    let Some(rounds) = rounds else {
        eprint!("{USAGE}");
        std::process::exit(2);
    };
    type Work = fn(u64) -> Tally;
    let pairs: [(&str, Work, Work); 2] = [("mixed", port_mixed, published_mixed), ("bulk", port_bulk, published_bulk)];
    for (name, port, published) in pairs {
        let (ours, our_time) = timed(port, rounds);
        let (theirs, their_time) = timed(published, rounds);
        if ours != theirs {
            eprintln!("one-process: {name}: the port's sum {} is not the published Rust's {}", ours.sum, theirs.sum);
            std::process::exit(1);
        }
        println!("{name} {} {} {our_time:.1} {their_time:.1}", ours.calls, ours.sum);
    }
}
