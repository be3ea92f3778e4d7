//! The UART of an emulated ESP32-C3 as a safe type, over calls that are proved (docs/PROOFS.md of this repository).
//!
//! Names and meaning are those of inkemu's uart.rs. What the machine's context gave there, the cycle now, comes in with each
//! dated call; what it was told, the interrupt level, the next wake and the notices, comes back in a [`Report`]. A call that
//! document 01's limits refuse answers a [`Refusal`] and changes nothing. No call allocates.
//!
//! [`figures()`] stands beside the UART: how busy a line was, from the frames on it.
mod calls;
mod figures;
mod plain;
mod refusal;
mod report;
#[cfg(test)]
mod tests;

/// The example of the crate's README, which the tests run.
#[cfg(doctest)]
#[doc = include_str!("../README.md")]
struct Readme;

pub use figures::{figures, Figures, FRAMES};
pub use refusal::Refusal;
pub use report::{Feature, Notice, Report, Row};

use plain::{PlainAnswer, PlainCore, PlainReply, Slots, LEFT};
use std::fmt;

/// The length that a buffer lent to [`Uart::take_tx`] or [`Uart::take_written`] must have at least.
pub const BUFFER: usize = LEFT;

/// What a dated call that was carried out answers: its own result, and the report.
#[derive(Clone, Copy, Debug, PartialEq, Eq)]
pub struct Answer<T> {
    /// The call's own result.
    pub result: T,
    /// Level, wake, overflows, notices and passes, as the call leaves them.
    pub report: Report,
}

/// What a dated call answers.
pub type Answered<T> = Result<Answer<T>, Refusal>;

/// One UART. Only [`Uart::new`] makes one, and only its methods change it, so that what the proved calls require of a state
/// always holds.
#[derive(Clone)]
#[repr(C)] // as the C header has it
pub struct Uart {
    core: PlainCore,
    slots: Slots,
}

impl Uart {
    /// Set-up. Offsets and reset words are those of, in order: FIFO, INT_RAW, INT_ST, INT_ENA, INT_CLR, CLKDIV, STATUS,
    /// FSM_STATUS, CONF0, CONF1, CLK_CONF, IDLE_CONF, RS485_CONF, AT_CMD_CHAR, MEM_CONF, MEM_RX_STATUS.
    ///
    /// # Errors
    /// [`Refusal::RepeatedOffset`] where two offsets are equal.
    pub fn new(offsets: [u32; 16], reset_words: [u32; 16]) -> Result<Uart, Refusal> {
        let new = calls::new(offsets, reset_words);
        Refusal::of(new.reply.number)?;
        Ok(Uart { core: new.core, slots: Slots::EMPTY })
    }

    /// The value at an offset; none where nothing can be read. From an empty FIFO 0, with a notice.
    ///
    /// # Errors
    /// A date past the end, or before the last one.
    #[inline]
    pub fn read(&mut self, now: u64, offset: u32) -> Answered<Option<u32>> {
        let answer = calls::read(&self.core, &mut self.slots, now, offset);
        // The call's contract: a value is a word of 32 bits.
        self.done(&answer, |reply| reply.holds.then_some(reply.value as u32))
    }

    /// A write at an offset: whether it was accepted.
    ///
    /// # Errors
    /// A date past the end, or before the last one; a write to FIFO with the transmit side full.
    #[inline]
    pub fn write(&mut self, now: u64, offset: u32, value: u32) -> Answered<bool> {
        let answer = calls::write(&self.core, &mut self.slots, now, offset, value);
        self.done(&answer, |reply| reply.holds)
    }

    /// Bytes written to FIFO one after another at one cycle: as so many calls of [`Uart::write`], up to the first one that would be
    /// refused, and 1,152 bytes at most.
    ///
    /// # Errors
    /// A date past the end, or before the last one; one byte or more, with the transmit side full.
    #[inline]
    pub fn write_row(&mut self, now: u64, bytes: &[u8]) -> Result<Row, Refusal> {
        let answer = calls::write_row(&self.core, &mut self.slots, now, bytes);
        Refusal::of(answer.reply.number)?;
        self.core = answer.core;
        Ok(Row::of(&answer.reply, answer.report))
    }

    /// The host hands over bytes, which start on the line at cycle `at` at the earliest.
    ///
    /// # Errors
    /// A date past the end, or before the last one; more bytes or runs than the host's queue holds.
    #[inline]
    pub fn receive(&mut self, now: u64, at: u64, bytes: &[u8]) -> Answered<()> {
        let answer = calls::receive(&self.core, &mut self.slots, now, at, bytes);
        self.done(&answer, |_| ())
    }

    /// The cycle of the wake that was armed has come.
    ///
    /// # Errors
    /// A date past the end, or before the last one.
    #[inline]
    pub fn wake(&mut self, now: u64) -> Answered<()> {
        let answer = calls::wake(&self.core, &mut self.slots, now);
        self.done(&answer, |_| ())
    }

    /// Whether each departure asks for a wake, so that a console shows a byte as it leaves.
    ///
    /// # Errors
    /// A date past the end, or before the last one.
    #[inline]
    pub fn watch(&mut self, now: u64, watched: bool) -> Answered<()> {
        let answer = calls::watch(&self.core, &self.slots, now, watched);
        self.done(&answer, |_| ())
    }

    /// A reset. Host bytes, the byte on the line and bytes that left stay.
    ///
    /// # Errors
    /// A date past the end, or before the last one.
    #[inline]
    pub fn reset(&mut self, now: u64) -> Answered<()> {
        let answer = calls::reset(&self.core, &mut self.slots, now);
        self.done(&answer, |_| ())
    }

    /// Nothing moves after this cycle until a reset.
    ///
    /// # Errors
    /// A date past the end, or before the last one.
    #[inline]
    pub fn power_down(&mut self, now: u64) -> Answered<()> {
        let answer = calls::power_down(&self.core, &self.slots, now);
        self.done(&answer, |_| ())
    }

    /// Another period of the APB clock, in cycles; 0 counts as 1.
    ///
    /// # Errors
    /// A date past the end, or before the last one; a period too long.
    #[inline]
    pub fn clock_change(&mut self, now: u64, period: u64) -> Answered<()> {
        let answer = calls::clock_change(&self.core, &mut self.slots, now, period);
        self.done(&answer, |_| ())
    }

    /// The bytes that have left, to the front of `out`: how many. What stands after them is not written.
    ///
    /// # Errors
    /// A date past the end, or before the last one; a buffer below [`BUFFER`] bytes, which then stays as it is.
    #[inline]
    pub fn take_tx(&mut self, now: u64, out: &mut [u8]) -> Answered<usize> {
        let answer = calls::take_tx(&self.core, &mut self.slots, now, out);
        self.done(&answer, |reply| reply.value as usize)
    }

    /// All that was written, the bytes that left and those in flight, to the front of `out`: how many.
    ///
    /// # Errors
    /// A buffer below [`BUFFER`] bytes, which then stays as it is.
    #[inline]
    pub fn take_written(&mut self, out: &mut [u8]) -> Result<usize, Refusal> {
        let answer = calls::take_written(&self.core, &self.slots, out);
        self.done(&answer, |reply| reply.value as usize).map(|done| done.result)
    }

    /// Whether a byte has left that no call has taken.
    ///
    /// # Errors
    /// None: no test refuses it, and its number is always 0.
    #[inline]
    pub fn has_left(&self) -> Result<bool, Refusal> {
        let reply = calls::has_left(&self.core);
        Refusal::of(reply.number).map(|()| reply.holds)
    }

    /// The host bytes that have not landed: those that wait, and the one on the line.
    ///
    /// # Errors
    /// None: no test refuses it, and its number is always 0.
    #[inline]
    pub fn host_pending(&self) -> Result<usize, Refusal> {
        let reply = calls::host_pending(&self.core);
        Refusal::of(reply.number).map(|()| reply.value as usize)
    }

    /// The core after the call is kept; after a refusal it is the one before, so nothing is written.
    #[inline]
    fn done<T>(&mut self, answer: &PlainAnswer, result: impl FnOnce(&PlainReply) -> T) -> Answered<T> {
        Refusal::of(answer.reply.number)?;
        self.core = answer.core;
        Ok(Answer { result: result(&answer.reply), report: Report::of(answer.report) })
    }
}

/// What a machine may ask of a UART, and how full its queues are.
impl fmt::Debug for Uart {
    fn fmt(&self, f: &mut fmt::Formatter<'_>) -> fmt::Result {
        f.debug_struct("Uart")
            .field("last", &self.core.last)
            .field("wake", &self.core.wake.set.then_some(self.core.wake.at))
            .field("level", &self.core.level)
            .field("in_flight", &self.core.flight.count)
            .field("left", &self.core.tx.count)
            .field("host_pending", &calls::host_pending(&self.core).value)
            .field("received", &self.core.rx.count)
            .finish()
    }
}
