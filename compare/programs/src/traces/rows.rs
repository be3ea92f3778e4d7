//! Rows: of every length, across each edge of the transmit side, and where a byte takes no time.
use super::generator::Generator;
use super::registers::*;
use super::steps::{EVEN, Mix};
use uart_box::calls::Call;

/// Mostly rows, and the calls that make room for the next one.
const ROWS: Mix = Mix { row: 50, take_tx: 12, wake: 14, take_written: 3, configure: 6, ..EVEN };
/// What a FIFO holds, what a row may have, and more.
const EDGES: [usize; 10] = [128, 129, 130, 131, 1_024, 1_151, 1_152, 1_153, 1_154, 1_300];

impl Generator {
    /// A row: mostly of 1 to 96 bytes; of none, of more than a FIFO holds, or of more than a row may have.
    pub fn row(&mut self, now: u64) {
        let length = match self.random.below(20) {
            0..=2 => 0,
            3..=7 => 1 + self.random.below(4) as usize,
            8..=16 => 1 + self.random.below(96) as usize,
            17 | 18 => 97 + self.random.below(70) as usize,
            _ => self.random.pick(&EDGES),
        };
        self.write_row(now, length);
    }

    /// A row, often on a UART that was brought to an edge first.
    pub fn rows(&mut self) {
        match self.random.below(40) {
            0 => {
                let longest_row = self.random.pick(&[30, 130, 1_152]);
                self.fill_left_by(longest_row);
            }
            1 => self.row_that_loses_host_bytes(),
            2 => self.rows_on_another_source(),
            3 => self.rows_that_take_no_time(),
            4 => self.row_across_the_threshold(),
            5..=8 => self.empty_row_before_another_call(),
            _ => self.step(&ROWS),
        }
    }

    /// Nothing is sent for a while, and what was sent is taken.
    fn idle(&mut self) -> u64 {
        let now = self.date_past_all();
        self.call(&Call::TakeTx { now, length: 1_152 });
        now
    }

    /// More host bytes than fit land as the row's first write settles.
    fn row_that_loses_host_bytes(&mut self) {
        let now = self.date();
        self.short_bytes(now);
        let count = 126 + self.random.below(8) as usize;
        self.receive(now, now, count);
        let past = self.date_past_all();
        let length = 1 + self.random.below(5) as usize;
        self.write_row(past, length);
        self.read(past, STATUS);
    }

    /// A notice for each byte that is sent, and another one for each that is dropped.
    fn rows_on_another_source(&mut self) {
        let now = self.idle();
        let source = self.random.pick(&[0, 2]);
        self.write(now, CLK_CONF, RX_SCLK_EN | source << 20);
        for _ in 0..3 {
            let length = self.random.pick(&[1, 60, 96, 128, 130]);
            self.write_row(now, length);
        }
    }

    /// A divider of 0: each write finds the byte before it gone, and TX_DONE rises within the row.
    fn rows_that_take_no_time(&mut self) {
        let now = self.idle();
        self.write(now, CLKDIV, 0);
        let enabled = self.random.pick(&[0, 1 << 14, u32::MAX]);
        self.write(now, INT_ENA, enabled);
        self.write(now, CONF1, 0);
        for _ in 0..4 {
            self.write(now, INT_CLR, u32::MAX);
            let length = self.random.pick(&[1, 2, 3, 96, 140, 500]);
            self.write_row(now, length);
            self.read(now, INT_RAW);
        }
    }

    /// Some bytes in flight and a wake that was called, then a row past the threshold: the wake moves within it.
    fn row_across_the_threshold(&mut self) {
        let now = self.idle();
        let threshold = 1 + self.random.below(100) as u32;
        self.write(now, CONF1, threshold << 9);
        let in_flight = 1 + self.random.below(8) as usize;
        self.write_row(now, in_flight);
        let woken = self.sight().wake.unwrap_or(now).max(now);
        self.call(&Call::Wake { now: woken });
        let length = self.random.below(u64::from(threshold) + 20) as usize;
        self.write_row(woken, length);
    }

    /// An empty row that is dated later than the call after it, which is taken all the same.
    fn empty_row_before_another_call(&mut self) {
        let later = if self.random.chance(80) { self.date() } else { self.any_date() };
        self.write_row(later, 0);
        let last = self.sight().last;
        let now = last + self.random.below(later.saturating_sub(last).min(10_000) + 1);
        self.step_at(&ROWS, now);
    }
}
