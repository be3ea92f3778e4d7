//! Scenes that bring one queue to its last free byte, from both sides, and ask around it.
use super::generator::Generator;
use super::registers::*;
use super::steps::{EVEN, Mix};
use uart_box::calls::Call;

/// Calls that show a queue's state and leave it nearly as it is.
const LOOKING: Mix = Mix { configure: 1, reset: 0, power_down: 0, take_written: 0, clock: 1, ..EVEN };

impl Generator {
    /// A short byte, from here on: a divider of a few cycles on the crystal.
    pub fn short_bytes(&mut self, now: u64) {
        let word = 1 + self.random.below(3) as u32;
        self.write(now, CLKDIV, word);
        self.write(now, CLK_CONF, 0x0230_0000);
    }

    /// The receive FIFO at 126 to 129 bytes: handed over, landed, then one at a time.
    pub fn fill_receive_fifo(&mut self) {
        let now = self.date();
        self.short_bytes(now);
        let conf1 = conf1_for_full(&mut self.random);
        self.write(now, CONF1, conf1);
        let missing = 126u64.saturating_sub(self.sight().received as u64) + self.random.below(4);
        self.receive(now, now, missing as usize);
        let past = self.date_past_all();
        self.read(past, STATUS);
        for _ in 0..6 {
            let now = self.date();
            self.receive(now, now, 1);
            let landed = self.date_at_an_instant();
            self.read_one(landed);
            self.step(&LOOKING);
        }
    }

    /// Bytes in flight at 127 to 131, all written at one date, now and then on a source without a clock.
    pub fn fill_in_flight(&mut self) {
        let now = self.date();
        if self.random.chance(30) {
            let source = self.random.below(4) as u32;
            self.write(now, CLK_CONF, RX_SCLK_EN | source << 20);
        }
        let missing = 126u64.saturating_sub(self.sight().in_flight as u64) + self.random.below(3);
        self.send(now, missing as usize);
        for _ in 0..10 {
            let now = self.date();
            self.write_byte_or_row(now);
            self.read(now, STATUS);
            if self.random.chance(30) {
                self.step(&LOOKING);
            }
        }
    }

    /// So many bytes at one date: a row, or one by one.
    fn send(&mut self, now: u64, count: usize) {
        if self.random.chance(40) {
            self.write_row(now, count);
            return;
        }
        for _ in 0..count {
            self.write_byte(now);
        }
    }

    fn write_byte(&mut self, now: u64) {
        let word = self.random.u32();
        self.write(now, FIFO, word);
    }

    /// One byte, or a row of a few or none.
    fn write_byte_or_row(&mut self, now: u64) {
        if self.random.chance(60) {
            self.write_byte(now);
        } else {
            let count = self.random.pick(&[0, 1, 2, 3, 5]);
            self.write_row(now, count);
        }
    }

    /// Bytes left and in flight at 1,150 to 1,153 in all: nobody takes them.
    pub fn fill_left(&mut self) {
        let longest_row = self.random.pick(&[0, 0, 30, 130, 1_152]);
        self.fill_left_by(longest_row);
    }

    /// The same by rows of at most so many bytes, or byte by byte. Now and then a byte takes no time.
    pub fn fill_left_by(&mut self, longest_row: usize) {
        let now = self.date();
        self.short_bytes(now);
        if self.random.chance(20) {
            self.write(now, CLKDIV, 0);
        }
        self.send_until_nearly_full(longest_row);
        for _ in 0..8 {
            let now = if self.random.chance(30) { self.any_date() } else { self.date() };
            self.write_byte_or_row(now);
            if self.random.chance(40) {
                self.step(&LOOKING);
            }
        }
        self.hand_out_at_the_edge();
    }

    fn send_until_nearly_full(&mut self, longest_row: usize) {
        while !self.done() {
            let sight = self.sight();
            let free = 1_150usize.saturating_sub(sight.left + sight.in_flight);
            if free == 0 {
                return;
            }
            if sight.in_flight >= 128 || self.random.chance(2) {
                let past = self.date_past_all();
                self.call(&Call::Wake { now: past });
                // Nothing leaves after a power-down.
                if self.sight().in_flight >= 128 {
                    return;
                }
            }
            let now = self.sight().last;
            match longest_row.min(free) {
                0 => self.write_byte(now),
                most => {
                    let count = 1 + self.random.below(most as u64) as usize;
                    self.write_row(now, count);
                }
            }
        }
    }

    fn hand_out_at_the_edge(&mut self) {
        let now = self.date();
        let length = self.random.pick(&[0, 1151, 1152, 1153, 8192]);
        let call = if self.random.chance(60) { Call::TakeTx { now, length } } else { Call::TakeWritten { length } };
        self.call(&call);
        self.write_byte(now);
    }

    /// Waiting host bytes at 1,022 to 1,026: one run, then one byte, none or a few more.
    pub fn fill_host(&mut self) {
        let now = self.date();
        self.short_bytes(now);
        let missing = 1_022u64.saturating_sub(self.sight().host as u64) + self.random.below(4);
        let later = now + 1 + self.random.below(300);
        let at = if self.random.chance(50) { now } else { later };
        self.receive(now, at, missing as usize);
        for _ in 0..10 {
            let now = if self.random.chance(50) { self.date_at_an_instant() } else { self.sight().last };
            let count = self.random.pick(&[0, 1, 1, 2, 3]);
            let at = self.start_date(now);
            self.receive(now, at, count);
            self.step_at(&LOOKING, now);
        }
    }

    /// Waiting runs at 62 to 65, dates strictly rising, then one at the last date, one before and one after.
    pub fn fill_runs(&mut self) {
        let now = self.date();
        let first = now + 1 + self.random.below(2_000);
        let missing = 62u64.saturating_sub(self.sight().runs as u64) + self.random.below(3);
        let mut at = first.max(self.sight().last_run_at.unwrap_or(0) / 32 + 1);
        for _ in 0..missing {
            let count = 1 + self.random.below(3) as usize;
            self.receive(now, at, count);
            at += 1 + self.random.below(60);
        }
        for _ in 0..10 {
            let last_run = self.sight().last_run_at.unwrap_or(0) / 32;
            let now = if self.random.chance(30) { self.date_at_an_instant() } else { self.sight().last };
            let at = (last_run + self.random.below(3)).saturating_sub(1);
            let count = self.random.pick(&[0, 1, 1, 2]);
            self.receive(now, at, count);
            if self.random.chance(30) {
                self.step_at(&LOOKING, now);
            }
        }
    }
}

/// A full threshold at the queue's end, with the overflow's detection on or off.
fn conf1_for_full(random: &mut super::random::Random) -> u32 {
    random.pick(&[125, 126, 127, 128, 129, 96]) | 96 << 9 | random.pick(&[0, 1 << 18]) | random.pick(&[0, RX_TOUT_EN])
}
