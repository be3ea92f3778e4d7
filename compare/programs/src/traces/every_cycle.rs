//! The exhaustive profile: a short frame, and the same trace with one read at every cycle from before the
//! start to after the timeout, for each of STATUS, INT_RAW and FIFO.
use super::generator::Generator;
use super::registers::{self, *};
use uart_box::calls::Call;

/// What the runs of one round have in common. Dates are cycles.
struct Frame {
    clkdiv: u32,
    conf0: u32,
    clk_conf: u32,
    mem_conf: u32,
    conf1: u32,
    /// Bytes of the host: at `starts_at` one, and perhaps a second one later.
    bytes: [u8; 2],
    starts_at: u64,
    second_at: Option<u64>,
    /// A byte is sent too, from three cycles before `starts_at` on.
    sends: bool,
    /// CLK_CONF written in mid frame.
    clock_change: Option<(u64, u32)>,
}

/// Eight bits at 4 cycles a bit, the timeout of 10 bits enabled, and a byte sent beside it.
fn plain_frame() -> Frame {
    Frame {
        clkdiv: 1,
        conf0: 0x1C,
        clk_conf: 3 << 20 | RX_SCLK_EN,
        mem_conf: 0x000A_0012,
        conf1: 0xC000 | RX_TOUT_EN,
        bytes: [0x55, 0],
        starts_at: 10,
        second_at: None,
        sends: true,
        clock_change: None,
    }
}

impl Generator {
    /// One round: a frame, then a run for each register and each cycle. A trace begins with the plain frame.
    pub fn every_cycle(&mut self) {
        let frame = if self.begins() { plain_frame() } else { self.frame() };
        // The last cycle that matters is past the timeout, or past the second byte's.
        let last = self.run(&frame, None) + 2;
        for place in [STATUS, INT_RAW, FIFO] {
            for cycle in frame.starts_at - 2..=last {
                if self.done() {
                    return;
                }
                self.run(&frame, Some((cycle, place)));
            }
        }
    }

    fn frame(&mut self) -> Frame {
        let starts_at = 10 + self.random.below(5);
        let second = starts_at + self.random.below(60);
        let change_at = starts_at + self.random.below(50);
        let source = self.random.pick(&[3, 3, 1, 0, 2]) << 20;
        let changed = self.random.pick(&[0, RX_SCLK_EN]) | self.random.pick(&[3, 1, 0, 2]) << 20;
        Frame {
            clkdiv: self.random.pick(&[1, 0x0070_0000, 0x0030_0001, 0x00F0_0000, 0]),
            conf0: self.random.u32() & 0x3E,
            clk_conf: source | if self.random.chance(80) { RX_SCLK_EN } else { 0 },
            mem_conf: (self.random.below(14) as u32) << 16 | 0x12,
            conf1: (96 << 9) | self.random.pick(&[0, 1, 5]) | if self.random.chance(80) { RX_TOUT_EN } else { 0 },
            bytes: [self.random.u32() as u8, self.random.u32() as u8],
            starts_at,
            second_at: self.random.chance(40).then_some(second),
            sends: self.random.chance(40),
            clock_change: self.random.chance(40).then_some((change_at, changed)),
        }
    }

    /// One run, with a read of `place` at `cycle` where asked. Gives the cycle of the last instant.
    fn run(&mut self, frame: &Frame, look: Option<(u64, usize)>) -> u64 {
        let mut setup = registers::bench();
        let words = [
            (CLKDIV, frame.clkdiv),
            (CONF0, frame.conf0),
            (CLK_CONF, frame.clk_conf),
            (MEM_CONF, frame.mem_conf),
            (CONF1, frame.conf1),
            (INT_ENA, 0x101),
        ];
        for (place, word) in words {
            setup.reset_words[place] = word;
        }
        self.set_up(setup);
        self.call(&Call::Receive { now: 0, at: frame.starts_at, bytes: vec![frame.bytes[0]] });
        if let Some(at) = frame.second_at {
            self.call(&Call::Receive { now: 0, at, bytes: vec![frame.bytes[1]] });
        }
        let sent_at = frame.starts_at - 3;
        if frame.sends {
            self.write(sent_at, FIFO, 0x1FF);
        }
        self.look_and_change(look, frame.clock_change);
        let last = self.last_instant(frame);
        self.call(&Call::Wake { now: last + 2 });
        self.read(last + 2, INT_RAW);
        last
    }

    /// The read and the change of CLK_CONF, by date; at one date the read comes first.
    fn look_and_change(&mut self, look: Option<(u64, usize)>, change: Option<(u64, u32)>) {
        match (look, change) {
            (Some((cycle, place)), Some((at, word))) if cycle <= at => {
                self.read(cycle, place);
                self.write(at, CLK_CONF, word);
            }
            (look, change) => {
                if let Some((at, word)) = change {
                    self.write(at, CLK_CONF, word);
                }
                if let Some((cycle, place)) = look {
                    self.read(cycle, place);
                }
            }
        }
    }

    /// A cycle at or past the last landing and timeout of this run.
    fn last_instant(&mut self, frame: &Frame) -> u64 {
        let sight = self.sight();
        // Two bytes, of which one may have been timed at half the rate, and the longest timeout of a frame.
        let bytes = sight.byte_time.saturating_mul(3) + sight.bit_time.saturating_mul(14);
        let from = frame.second_at.unwrap_or(0).max(frame.starts_at).max(frame.clock_change.map_or(0, |(at, _)| at));
        (from + bytes.div_ceil(32)).max(sight.last)
    }
}
