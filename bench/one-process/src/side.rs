//! The calls of the workloads, on either side: what a call gives that the workload reads.
use uart_box::calls::{Call, Setup};
use uart_box::the_box::{Answer, Outcome, TheBox};
use wondraxu::{BUFFER, Uart};

pub trait Side {
    fn read(&mut self, now: u64, offset: u32) -> u32;
    fn write(&mut self, now: u64, offset: u32, value: u32);
    fn receive(&mut self, now: u64, at: u64, bytes: &[u8]);
    fn wake(&mut self, now: u64) -> u64;
    fn take_tx(&mut self, now: u64) -> usize;
    fn host_pending(&mut self) -> usize;
    fn has_left(&mut self) -> bool;
}

/// Document 01's bench settings.
pub fn settings() -> Setup {
    let mut setup = Setup { offsets: [0; 16], reset_words: [0; 16] };
    for (place, offset) in (0u32..).zip(setup.offsets.iter_mut()) {
        *offset = 4 * place;
    }
    for (place, word) in [(5, 0x0080_000A), (8, 0x1C), (9, 0xC060), (10, 0x0230_0000), (14, 0x000A_0012)] {
        setup.reset_words[place] = word;
    }
    setup
}

/// The port, with the buffer that it is lent.
pub struct Port {
    uart: Uart,
    buffer: [u8; BUFFER],
}

impl Port {
    pub fn new() -> Port {
        let setup = settings();
        Port { uart: Uart::new(setup.offsets, setup.reset_words).expect("set-up is taken"), buffer: [0; BUFFER] }
    }
}

impl Side for Port {
    fn read(&mut self, now: u64, offset: u32) -> u32 {
        self.uart.read(now, offset).map_or(0, |done| done.result.unwrap_or(0))
    }

    fn write(&mut self, now: u64, offset: u32, value: u32) {
        let _ = self.uart.write(now, offset, value);
    }

    fn receive(&mut self, now: u64, at: u64, bytes: &[u8]) {
        let _ = self.uart.receive(now, at, bytes);
    }

    fn wake(&mut self, now: u64) -> u64 {
        self.uart.wake(now).map_or(0, |done| done.report.overflows())
    }

    fn take_tx(&mut self, now: u64) -> usize {
        self.uart.take_tx(now, &mut self.buffer).map_or(0, |done| done.result)
    }

    fn host_pending(&mut self) -> usize {
        self.uart.host_pending().unwrap_or(0)
    }

    fn has_left(&mut self) -> bool {
        self.uart.has_left().unwrap_or(false)
    }
}

/// The published Rust in its box.
pub struct Published(TheBox);

impl Published {
    pub fn new() -> Published {
        Published(TheBox::set_up(&settings()).expect("set-up is taken"))
    }
}

impl Side for Published {
    fn read(&mut self, now: u64, offset: u32) -> u32 {
        match self.0.call(&Call::Read { now, offset }) {
            Answer::Dated(dated) => match dated.outcome {
                Outcome::Value(value) => value.unwrap_or(0),
                _ => 0,
            },
            _ => 0,
        }
    }

    fn write(&mut self, now: u64, offset: u32, value: u32) {
        self.0.call(&Call::Write { now, offset, value });
    }

    fn receive(&mut self, now: u64, at: u64, bytes: &[u8]) {
        self.0.call(&Call::Receive { now, at, bytes: bytes.to_vec() });
    }

    fn wake(&mut self, now: u64) -> u64 {
        match self.0.call(&Call::Wake { now }) {
            Answer::Dated(dated) => dated.overflows,
            _ => 0,
        }
    }

    fn take_tx(&mut self, now: u64) -> usize {
        match self.0.call(&Call::TakeTx { now, length: BUFFER }) {
            Answer::Dated(dated) => match dated.outcome {
                Outcome::HandedOut(out) => out.bytes.len(),
                _ => 0,
            },
            _ => 0,
        }
    }

    fn host_pending(&mut self) -> usize {
        match self.0.call(&Call::HostPending) {
            Answer::HostPending(count) => count,
            _ => 0,
        }
    }

    fn has_left(&mut self) -> bool {
        matches!(self.0.call(&Call::HasLeft), Answer::HasLeft(true))
    }
}
