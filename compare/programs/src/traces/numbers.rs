//! Every number on both sides of its limit, and in pairs for the order of the tests.
use super::generator::Generator;
use super::registers::{self, *};
use super::steps::EVEN;
use uart_box::calls::Call;
use uart_box::the_box::DATES_END;

impl Generator {
    /// A scene around one of the numbers, at a date that is good, too late or goes back.
    pub fn around_a_number(&mut self) {
        match self.random.below(24) {
            0..=2 => self.repeated_offsets(),
            3 => self.fill_left(),
            4..=6 => self.fill_host(),
            7..=9 => self.fill_runs(),
            10..=13 => self.both_queues_full(),
            _ => {}
        }
        for _ in 0..12 {
            let now = self.any_date();
            self.refusable(now);
            self.figures_in(3);
            if self.random.chance(30) {
                self.step(&EVEN);
            }
        }
    }

    /// Good, one before the last, the end of dates, past it, or later than all that waits.
    pub fn any_date(&mut self) -> u64 {
        let sight = self.sight();
        match self.random.below(10) {
            0..=3 => self.date(),
            4 => sight.last,
            5 => sight.last.saturating_sub(1),
            6 => self.random.below(sight.last + 1),
            7 => DATES_END,
            8 => self.random.pick(&[DATES_END + 1, u64::MAX, 1 << 60, 1 << 63]),
            _ => sight.last + self.random.below(50),
        }
    }

    /// A call that some number may refuse, on either side of its limit.
    fn refusable(&mut self, now: u64) {
        match self.random.below(10) {
            0 => {
                let period = self.random.pick(&[0, 1, 999_999, 1_000_000, 1_000_001, u64::MAX]);
                self.call(&Call::Clock { now, period });
            }
            1 => {
                let length = self.random.pick(&[0, 1151, 1152, 1153, 8192]);
                self.call(&Call::TakeTx { now, length });
            }
            2 => {
                let length = self.random.pick(&[0, 1151, 1152, 1153, 8192]);
                self.call(&Call::TakeWritten { length });
            }
            3 | 4 => {
                let word = self.random.u32();
                self.write(now, FIFO, word);
            }
            5 | 6 => {
                let free = 1_024usize.saturating_sub(self.sight().host);
                let count = self.random.pick(&[0, 1, 1, 2, free, free + 1, free.saturating_sub(1)]);
                let at = self.start_date(now);
                self.receive(now, at, count);
            }
            7 => self.step_at(&EVEN, now),
            8 => {
                let length = self.random.pick(&[0, 0, 1, 2, 96]);
                self.write_row(now, length);
            }
            _ => {
                self.read(now, STATUS);
            }
        }
    }

    /// 64 runs and 1,023 or 1,024 bytes: numbers 5 and 6 at once, and each alone.
    fn both_queues_full(&mut self) {
        let now = self.sight().last;
        let first = (self.sight().last_run_at.unwrap_or(0) / 32).max(now) + 1;
        let free = 1_024usize.saturating_sub(self.sight().host);
        let runs = 64usize.saturating_sub(self.sight().runs);
        let spare = self.random.below(2) as usize;
        for run in 0..runs {
            let count = if run == 0 { free.saturating_sub(runs - 1 + spare).max(1) } else { 1 };
            self.receive(now, first + run as u64, count);
        }
        for _ in 0..6 {
            let last_run = self.sight().last_run_at.unwrap_or(0) / 32;
            let count = self.random.pick(&[0, 1, 2]);
            let at = last_run + self.random.below(2);
            self.receive(now, at, count);
        }
    }

    /// Two equal offsets at any two places, or none.
    fn repeated_offsets(&mut self) {
        let mut setup = registers::bench();
        let (one, other) = (self.random.below(16) as usize, self.random.below(16) as usize);
        setup.offsets[one] = setup.offsets[other];
        setup.reset_words[CLKDIV] = 0x00F0_0001;
        self.set_up(setup);
        let now = self.sight().last;
        self.read(now, CLKDIV);
    }
}
