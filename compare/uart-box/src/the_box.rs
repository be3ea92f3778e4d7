//! Document 01's box over the published UART: the numbers 1 to 8 in the order of its tests, the last
//! carried-out date, the clock change as one call, the lent buffers, and what an answer is made of.
use crate::calls::{Call, Setup};
use crate::clock::CpuClock;
use crate::ctx::Ctx;
use crate::diag::Unsupported;
use crate::figures::{self, Figures};
use crate::passes;
use crate::periph::UART0_BASE;
use crate::periph::uart::{Uart, looks};
use crate::row::{LONGEST_ROW, Row};
use emu_core::{Cycles, Peripheral};

/// The limits of document 01.
pub const DATES_END: u64 = 1 << 59;
pub const LONGEST_PERIOD: u64 = 1_000_000;
pub const SENT_BYTES: usize = 1_152;
pub const HOST_BYTES: usize = 1_024;
pub const HOST_RUNS: usize = 64;
const SUBCYCLES: u64 = 32;

/// The place of FIFO among the sixteen.
const FIFO_PLACE: usize = 0;
/// An offset that none of the compiled Rust's registers has.
const NO_REGISTER: u32 = 64;

/// What a call answers.
#[derive(Debug)]
pub enum Answer {
    /// A refusal, by its number.
    Refused(u8),
    SetUp,
    Dated(Dated),
    Row(Row),
    TakeWritten(HandedOut),
    HasLeft(bool),
    HostPending(usize),
    Figures(Figures),
}

/// The answer of a dated call that was carried out.
#[derive(Debug)]
pub struct Dated {
    pub outcome: Outcome,
    pub level: bool,
    /// In cycles.
    pub wake: Option<u64>,
    pub overflows: u64,
    pub(crate) notices: Vec<Unsupported>,
    pub passes: u64,
}

#[derive(Debug)]
pub enum Outcome {
    Value(Option<u32>),
    Accepted(bool),
    HandedOut(HandedOut),
    Done,
}

/// The front of a lent buffer after the call, and whether the rest is as it was lent.
#[derive(Debug)]
pub struct HandedOut {
    pub bytes: Vec<u8>,
    pub rest_kept: bool,
}

/// How full the queues are, and the instants to come, in subcycles: for a generator that aims.
#[derive(Debug, Default)]
pub struct Sight {
    pub last: u64,
    pub left: usize,
    pub in_flight: usize,
    pub received: usize,
    pub host: usize,
    pub runs: usize,
    pub last_run_at: Option<u64>,
    pub wake: Option<u64>,
    pub start: Option<u64>,
    pub landing: Option<u64>,
    pub timeout: Option<u64>,
    pub first_gone: Option<u64>,
    pub last_gone: Option<u64>,
    pub below_threshold: Option<u64>,
    pub on_the_line: bool,
    pub byte_time: u64,
    pub bit_time: u64,
}

/// One UART, with the register map and the reset words it was set up with.
pub struct TheBox {
    uart: Uart,
    ctx: Ctx,
    offsets: [u32; 16],
    reset_words: [u32; 16],
    /// The last carried-out date, in cycles.
    last: u64,
}

impl TheBox {
    /// Set-up: number 1 where two of the sixteen offsets are equal.
    pub fn set_up(setup: &Setup) -> Result<TheBox, u8> {
        let offsets = setup.offsets;
        if (1..offsets.len()).any(|i| offsets[..i].contains(&offsets[i])) {
            return Err(1);
        }
        svd_regs::esp32c3::set_reset_words(setup.reset_words);
        Ok(TheBox {
            uart: Uart::new(0, UART0_BASE),
            ctx: Ctx::new(false),
            offsets,
            reset_words: setup.reset_words,
            last: 0,
        })
    }

    /// One call on this UART; `Setup` is not one.
    pub fn call(&mut self, call: &Call) -> Answer {
        if let Some(number) = self.refusal(call) {
            return Answer::Refused(number);
        }
        match *call {
            Call::Setup(_) => Answer::SetUp,
            Call::WriteRow { now, ref bytes } => self.write_row(now, bytes),
            Call::TakeWritten { length } => Answer::TakeWritten(hand_out(&self.uart.take_written(), length)),
            Call::HasLeft => Answer::HasLeft(self.uart.has_left()),
            Call::HostPending => Answer::HostPending(self.uart.host_pending()),
            Call::Figures { ref frames } => figures::answer(frames),
            _ => Answer::Dated(self.dated(call)),
        }
    }

    /// The number that refuses `call`, in document 01's order: 2, 3, 7, 8, 4, 5, 6. Reads the state before
    /// settling and changes nothing.
    fn refusal(&self, call: &Call) -> Option<u8> {
        if let Some(now) = call.now() {
            if now >= DATES_END {
                return Some(2);
            }
            if now < self.last {
                return Some(3);
            }
        }
        let full = looks::counts(&self.uart);
        match *call {
            Call::Clock { period, .. } if period > LONGEST_PERIOD => Some(7),
            Call::TakeTx { length, .. } | Call::TakeWritten { length } if length < SENT_BYTES => Some(8),
            Call::Write { offset, .. }
                if offset == self.offsets[FIFO_PLACE] && full.left + full.in_flight >= SENT_BYTES =>
            {
                Some(4)
            }
            Call::Receive { ref bytes, .. } if full.host + bytes.len() > HOST_BYTES => Some(5),
            Call::Receive { now, at, ref bytes }
                if !bytes.is_empty()
                    && full.runs >= HOST_RUNS
                    && full.last_run_at.is_some_and(|last| receive_date(now, at) > last) =>
            {
                Some(6)
            }
            _ => None,
        }
    }

    /// A row whose date no number refuses: its bytes written to FIFO, each a call of its own, up to the first that
    /// is refused. A row without a byte makes no call: it says how the UART stands.
    fn write_row(&mut self, now: u64, bytes: &[u8]) -> Answer {
        let offset = self.offsets[FIFO_PLACE];
        let mut row = Row::unwritten(self.ctx.sources() != 0, looks::wake(&self.uart));
        for &byte in bytes.iter().take(LONGEST_ROW) {
            match self.call(&Call::Write { now, offset, value: u32::from(byte) }) {
                Answer::Dated(written) => row.add(&written),
                Answer::Refused(number) if row.made == 0 => return Answer::Refused(number),
                _ => break,
            }
        }
        Answer::Row(row)
    }

    /// A dated call that no number refuses.
    fn dated(&mut self, call: &Call) -> Dated {
        self.last = call.now().unwrap_or(self.last);
        self.ctx.sleep_until(Cycles(self.last));
        passes::take();
        let outcome = self.carry_out(call);
        let (overflows, notices) = self.notices();
        // What the machine would drain, so that neither list grows: one wake-up at most is kept.
        debug_assert!(self.ctx.scheduled_entries() <= 1, "more than one wake-up is scheduled");
        Dated {
            outcome,
            level: self.ctx.sources() != 0,
            wake: looks::wake(&self.uart),
            overflows,
            notices,
            passes: passes::take(),
        }
    }

    fn carry_out(&mut self, call: &Call) -> Outcome {
        let (uart, ctx) = (&mut self.uart, &mut self.ctx);
        match *call {
            Call::Read { offset, .. } => return Outcome::Value(uart.read(ctx, place_offset(&self.offsets, offset))),
            Call::Write { offset, value, .. } => {
                return Outcome::Accepted(uart.write(ctx, place_offset(&self.offsets, offset), value));
            }
            Call::TakeTx { length, .. } => return Outcome::HandedOut(hand_out(&uart.take_tx(ctx), length)),
            Call::Receive { at, ref bytes, .. } => uart.receive(ctx, Cycles(at), bytes),
            Call::Wake { .. } => {
                // The machine calls a device with a wake-up that it has taken from the scheduler.
                while ctx.take_due().is_some() {}
                uart.wake(ctx);
            }
            Call::Watch { watched, .. } => uart.watch(ctx, watched),
            Call::Reset { .. } => {
                svd_regs::esp32c3::set_reset_words(self.reset_words);
                uart.reset(ctx);
            }
            Call::PowerDown { .. } => uart.power_down(ctx),
            Call::Clock { period, .. } => {
                uart.clock_changing(ctx);
                ctx.set_clock(CpuClock::new(period, period));
                uart.clock_changed(ctx);
            }
            Call::Setup(_)
            | Call::WriteRow { .. }
            | Call::TakeWritten { .. }
            | Call::HasLeft
            | Call::HostPending
            | Call::Figures { .. } => {}
        }
        Outcome::Done
    }

    /// The notices since the last call: UartRxOverflow as a count, the others in order.
    fn notices(&mut self) -> (u64, Vec<Unsupported>) {
        let mut overflows = 0;
        let mut others = Vec::new();
        while let Some(notice) = self.ctx.take_unsupported() {
            match notice {
                Unsupported::UartRxOverflow { .. } => overflows += 1,
                other => others.push(other),
            }
        }
        if overflows > 0 || !others.is_empty() {
            self.ctx.diag.drain();
        }
        (overflows, others)
    }

    #[must_use]
    pub fn sight(&self) -> Sight {
        let counts = looks::counts(&self.uart);
        let instants = looks::instants(&self.uart, &self.ctx);
        Sight {
            last: self.last,
            left: counts.left,
            in_flight: counts.in_flight,
            received: counts.received,
            host: counts.host,
            runs: counts.runs,
            last_run_at: counts.last_run_at,
            wake: looks::wake(&self.uart),
            start: instants.start,
            landing: instants.landing,
            timeout: instants.timeout,
            first_gone: instants.first_gone,
            last_gone: instants.last_gone,
            below_threshold: instants.below_threshold,
            on_the_line: instants.on_the_line,
            byte_time: instants.byte_time,
            bit_time: instants.bit_time,
        }
    }
}

/// `receive`'s date in subcycles: max(its cycle, now) × 32, held at the largest date.
fn receive_date(now: u64, at: u64) -> u64 {
    at.max(now).saturating_mul(SUBCYCLES)
}

/// The compiled Rust's offset of the register that the set-up has at `offset`: 4 × its place.
fn place_offset(offsets: &[u32; 16], offset: u32) -> u32 {
    match (0u32..).zip(offsets).find(|&(_, &listed)| listed == offset) {
        Some((place, _)) => 4 * place,
        None if offset < NO_REGISTER => NO_REGISTER,
        None => offset,
    }
}

/// Lends a buffer of `length` bytes to a hand-out of `sent`: they go to its front, and nothing after.
fn hand_out(sent: &[u8], length: usize) -> HandedOut {
    let lent: Vec<u8> = (0u8..=255).cycle().map(|byte| byte ^ 0x5A).take(length).collect();
    let mut buffer = lent.clone();
    buffer[..sent.len()].copy_from_slice(sent);
    let rest_kept = buffer[sent.len()..] == lent[sent.len()..];
    buffer.truncate(sent.len());
    HandedOut { bytes: buffer, rest_kept }
}
