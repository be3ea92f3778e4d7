//! The port behind the replay format: `wondraxu::Uart`, with each answer as its line.
use crate::Side;
use crate::line;
use uart_box::calls::{Call, LONGEST_BUFFER};
use uart_box::figures::Frame;
use wondraxu::{Answered, Refusal, Row, Uart};

/// What a lent buffer holds before the call, and how far past its end it is looked at.
const LENT: u8 = 0x5A;
const PAST: usize = 16;

/// The UART in place, if one was set up, and the buffer that is lent of it.
pub struct Port {
    uart: Option<Uart>,
    buffer: Vec<u8>,
}

impl Default for Port {
    fn default() -> Port {
        Port { uart: None, buffer: vec![LENT; LONGEST_BUFFER as usize + PAST] }
    }
}

impl Side for Port {
    fn call(&mut self, call: &Call, out: &mut Vec<u8>) {
        match call {
            Call::Setup(setup) => return self.set_up(setup.offsets, setup.reset_words, out),
            Call::Figures { frames } => return figures(out, frames),
            _ => {}
        }
        let Some(uart) = &mut self.uart else {
            return line::no_uart(out);
        };
        match *call {
            Call::Read { now, offset } => dated(out, uart.read(now, offset), line::value),
            Call::Write { now, offset, value } => dated(out, uart.write(now, offset, value), line::accepted),
            Call::WriteRow { now, ref bytes } => row(out, uart.write_row(now, bytes)),
            Call::Receive { now, at, ref bytes } => dated(out, uart.receive(now, at, bytes), line::done),
            Call::Wake { now } => dated(out, uart.wake(now), line::done),
            Call::Watch { now, watched } => dated(out, uart.watch(now, watched), line::done),
            Call::Reset { now } => dated(out, uart.reset(now), line::done),
            Call::PowerDown { now } => dated(out, uart.power_down(now), line::done),
            Call::Clock { now, period } => dated(out, uart.clock_change(now, period), line::done),
            Call::TakeTx { now, length } => {
                let taken = uart.take_tx(now, &mut self.buffer[..length]);
                let buffer = &self.buffer;
                dated(out, taken, |out, count| line::handed_out(out, &buffer[..count], kept(&buffer[count..])));
                self.restore(taken.map(|done| done.result), out);
            }
            Call::TakeWritten { length } => {
                let taken = uart.take_written(&mut self.buffer[..length]);
                let buffer = &self.buffer;
                undated(out, taken, |out, count| line::taken(out, &buffer[..count], kept(&buffer[count..])));
                self.restore(taken, out);
            }
            Call::HasLeft => undated(out, uart.has_left(), line::has_left),
            Call::HostPending => undated(out, uart.host_pending(), line::host_pending),
            Call::Setup(_) | Call::Figures { .. } => {}
        }
    }
}

impl Port {
    /// A refused set-up leaves the UART before in place.
    fn set_up(&mut self, offsets: [u32; 16], reset_words: [u32; 16], out: &mut Vec<u8>) {
        match Uart::new(offsets, reset_words) {
            Ok(uart) => {
                self.uart = Some(uart);
                out.extend_from_slice(b"0\n");
            }
            Err(refusal) => line::refused(out, refusal),
        }
    }

    /// The buffer as it was before the call. A refused call must have left it so.
    fn restore(&mut self, taken: Result<usize, Refusal>, out: &mut Vec<u8>) {
        match taken {
            Ok(count) => self.buffer[..count].fill(LENT),
            Err(_) if kept(&self.buffer) => {}
            Err(_) => {
                out.extend_from_slice(b"a refused call wrote to the lent buffer\n");
                self.buffer.fill(LENT);
            }
        }
    }
}

fn kept(rest: &[u8]) -> bool {
    rest.iter().all(|&byte| byte == LENT)
}

fn dated<T>(out: &mut Vec<u8>, answered: Answered<T>, result: impl FnOnce(&mut Vec<u8>, T)) {
    match answered {
        Ok(answer) => {
            out.extend_from_slice(b"0 ");
            result(out, answer.result);
            line::report(out, &answer.report);
        }
        Err(refusal) => line::refused(out, refusal),
    }
}

fn figures(out: &mut Vec<u8>, frames: &[Frame]) {
    let frames: Vec<(u64, u64)> = frames.iter().map(|frame| (frame.start, frame.end)).collect();
    undated(out, wondraxu::figures(&frames), line::figures);
}

fn row(out: &mut Vec<u8>, answered: Result<Row, Refusal>) {
    match answered {
        Ok(row) => line::row(out, &row),
        Err(refusal) => line::refused(out, refusal),
    }
}

fn undated<T>(out: &mut Vec<u8>, answered: Result<T, Refusal>, result: impl FnOnce(&mut Vec<u8>, T)) {
    match answered {
        Ok(answer) => result(out, answer),
        Err(refusal) => line::refused(out, refusal),
    }
}
