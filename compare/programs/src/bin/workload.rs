//! The mixed workload of crates/bench_mixed on the published Rust in its box: the same calls, the same sum.
use programs::usage;
use uart_box::calls::{Call, Setup};
use uart_box::the_box::{Answer, Outcome, TheBox};

const USAGE: &str = "usage: workload    prints `sum N`, and on standard error how many calls were made\n";
const FIFO: u32 = 0;
const INT_ST: u32 = 8;
const INT_ENA: u32 = 12;
const INT_CLR: u32 = 16;
const STATUS: u32 = 24;
const CONF1: u32 = 36;

struct Tally {
    uart: TheBox,
    sum: u64,
    calls: u64,
}

impl Tally {
    fn call(&mut self, call: &Call) -> Answer {
        self.calls += 1;
        self.uart.call(call)
    }

    fn add(&mut self, value: u64) {
        self.sum = (self.sum % 1_000_000_007) * 3 + value % 1_000_000_007;
    }

    fn look(&mut self, now: u64, offset: u32) -> u32 {
        let value = match self.call(&Call::Read { now, offset }) {
            Answer::Dated(dated) => match dated.outcome {
                Outcome::Value(value) => value.unwrap_or(0),
                _ => 0,
            },
            _ => 0,
        };
        self.add(u64::from(value));
        value
    }

    fn write(&mut self, now: u64, offset: u32, value: u32) {
        self.call(&Call::Write { now, offset, value });
    }

    /// A row of 16 bytes is sent, one comes, the handler reads it, and the console takes what was sent.
    fn round(&mut self, base: u64) {
        for i in 0..16 {
            self.look(base + i * 10, STATUS);
            self.write(base + i * 10, FIFO, u32::try_from(i).unwrap_or(0) + 32);
        }
        self.call(&Call::Receive { now: base + 200, at: base + 300, bytes: b"basket 7, row 12".to_vec() });
        for i in 0..20 {
            let now = base + 300 + i * 420;
            self.call(&Call::Wake { now });
            let raised = self.look(now, INT_ST);
            if self.look(now, STATUS) & 0x3FF != 0 {
                self.look(now, FIFO);
            }
            self.write(now, INT_CLR, raised);
        }
        let taken = match self.call(&Call::TakeTx { now: base + 9000, length: 1152 }) {
            Answer::Dated(dated) => match dated.outcome {
                Outcome::HandedOut(out) => out.bytes.len() as u64,
                _ => 0,
            },
            _ => 0,
        };
        self.add(taken);
        let pending = match self.call(&Call::HostPending) {
            Answer::HostPending(count) => count as u64,
            _ => 0,
        };
        self.add(pending);
        let left = matches!(self.call(&Call::HasLeft), Answer::HasLeft(true));
        self.add(u64::from(left));
    }
}

fn main() {
    if let Some(word) = usage::words(USAGE).first() {
        usage::bad("workload", &format!("no word is expected: `{word}`"), USAGE);
    }
    let mut setup = Setup { offsets: [0; 16], reset_words: [0; 16] };
    for (place, offset) in (0u32..).zip(setup.offsets.iter_mut()) {
        *offset = 4 * place;
    }
    for (place, word) in [(5, 0x0080_000A), (8, 0x1C), (9, 0xC060), (10, 0x0230_0000), (14, 0x000A_0012)] {
        setup.reset_words[place] = word;
    }
    let Ok(uart) = TheBox::set_up(&setup) else {
        usage::fail("workload", "set-up was refused");
    };
    let mut tally = Tally { uart, sum: 0, calls: 0 };
    tally.write(0, INT_ENA, 0x4113);
    tally.write(0, CONF1, 0x0020_C001);
    for row in 0..100 {
        tally.round(row * 20_000 + 1000);
    }
    println!("sum {}", tally.sum);
    eprintln!("{} calls", tally.calls);
}
