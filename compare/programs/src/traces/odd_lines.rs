//! Lines that are no calls, lines that are passed over, and calls in unusual but right writing.
use super::generator::Generator;
use super::steps::EVEN;
use uart_box::calls::{Call, LONGEST_LINE};

const WRONG: [&str; 52] = [
    "red 1 2",
    "READ 1 2",
    "read",
    "read 1",
    "read 1 2 3",
    "read 0X10 4",
    "read 1_000 4",
    "read +1 4",
    "read -1 4",
    "read 18446744073709551616 4",
    "read 0x10000000000000000 4",
    "read 1 4294967296",
    "read 1 0x100000000",
    "read 0x 4",
    "read 1 0xg",
    "write 1 0",
    "write 1 0 4294967296",
    "write 1 0 1 1",
    "write_row",
    "write_row 1",
    "write_row 1 5",
    "write_row 1 555",
    "write_row 1 5g",
    "write_row 1 --",
    "write_row 1 55 55",
    "write_row 0X1 55",
    "receive 1 1",
    "receive 1 1 5",
    "receive 1 1 555",
    "receive 1 1 5g",
    "receive 1 1 --",
    "receive 1 1 55 55",
    "watch 1 2",
    "watch 1 00",
    "watch 1 0x1",
    "watch 1",
    "take_tx 1 8193",
    "take_tx 1",
    "take_written 8193",
    "take_written",
    "has_left 0",
    "host_pending 1",
    "wake",
    "wake 1 1",
    "reset",
    "power_down",
    "clock 1",
    "clock 1 18446744073709551616",
    "setup 1 2 3",
    "setup",
    "take_written 0x2001",
    "wake 1a",
];

impl Generator {
    /// One odd line, and a call or two.
    pub fn odd_line(&mut self) {
        match self.random.below(200) {
            0..=79 => {
                let wrong = self.random.pick(&WRONG);
                self.line(wrong.as_bytes());
            }
            80..=94 => self.line(b""),
            95..=109 => self.line(b"# a comment is passed over: read 1 2"),
            110..=134 => self.spaced_call(),
            135 => self.long_line(),
            136..=164 => self.number_written_otherwise(),
            165..=180 => self.line(b"read\t1 2"),
            _ => self.line(b"wake 1\r"),
        }
        self.figures_in(5);
        self.step(&EVEN);
    }

    /// More than one space between the words, and at the line's end.
    fn spaced_call(&mut self) {
        let now = self.date();
        let gap = " ".repeat(1 + self.random.below(4) as usize);
        let line = format!("read{gap}{now}{gap}{}{}", self.offsets[6], " ".repeat(self.random.below(3) as usize));
        self.line(line.as_bytes());
    }

    /// Hexadecimal of both cases, and leading zeros.
    fn number_written_otherwise(&mut self) {
        let now = self.date();
        let offset = self.offsets[6];
        let line = match self.random.below(5) {
            0 => format!("read 0x{now:x} 0x{offset:X}"),
            1 => format!("read {now:025} {offset:012}"),
            2 => format!("read 0x{now:024X} {offset}"),
            3 => format!("write_row 0x{now:X}  aBCdEf"),
            _ => format!("receive {now} {now} aBCdEf"),
        };
        self.line(line.as_bytes());
    }

    /// A line of 65,535 to 65,537 bytes: a call, a row or a hand-over as long, a comment or spaces; then, perhaps, frames.
    fn long_line(&mut self) {
        let length = LONGEST_LINE - 1 + self.random.below(3) as usize;
        let now = self.date();
        let start = match self.random.below(5) {
            0 => format!("read {now} {}", self.offsets[1]),
            1 => "# long".to_owned(),
            2 => Call::WriteRow { now, bytes: self.filling(length, &format!("write_row {now} ")) }.line(),
            3 => Call::Receive { now, at: now, bytes: self.filling(length, &format!("receive {now} {now} ")) }.line(),
            _ => String::new(),
        };
        let line = start.clone() + &" ".repeat(length - start.len());
        self.line(line.as_bytes());
        if self.frame_random.chance(50) {
            self.long_figures();
        }
    }

    /// As many bytes as fit after `start` into a line of `length`.
    fn filling(&mut self, length: usize, start: &str) -> Vec<u8> {
        self.random.bytes((length - start.len()) / 2)
    }
}
