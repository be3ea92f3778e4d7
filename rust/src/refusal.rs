//! Why a call is refused: its number, with plain words. 1 to 8 are document 01's, 9 came with the figures.
use std::fmt;

/// A refused call changes nothing: state and lent buffers keep every bit.
#[derive(Clone, Copy, Debug, PartialEq, Eq, Hash)]
#[repr(u8)]
pub enum Refusal {
    /// Set-up: two of the sixteen offsets are equal.
    RepeatedOffset = 1,
    /// The cycle now is 2^59 or more.
    DatePastEnd = 2,
    /// The cycle now is below that of the last call that was carried out.
    DateWentBack = 3,
    /// A write to FIFO: the bytes that left and those in flight are 1,152.
    TransmitFull = 4,
    /// `receive`: the waiting host bytes and the new ones are over 1,024.
    HostFull = 5,
    /// `receive` of a byte or more: 64 runs wait, and the date is later than the last one's.
    RunsFull = 6,
    /// A clock change: the period is above 1,000,000.
    PeriodTooLong = 7,
    /// `take_tx`, `take_written`: the lent buffer is below 1,152 bytes.
    BufferTooShort = 8,
    /// `figures`: a frame ends before it starts, or starts before the one before it ends, or there are more than 1,024.
    UnfitList = 9,
}

impl Refusal {
    /// Its number.
    #[must_use]
    pub fn number(self) -> u8 {
        self as u8
    }

    /// `Ok` of 0, done. Nearly every call answers that, so that one comparison tells it.
    #[inline]
    pub(crate) fn of(number: u32) -> Result<(), Refusal> {
        if number == 0 {
            Ok(())
        } else {
            Err(Refusal::numbered(number))
        }
    }

    #[cold]
    fn numbered(number: u32) -> Refusal {
        match number {
            1 => Refusal::RepeatedOffset,
            2 => Refusal::DatePastEnd,
            3 => Refusal::DateWentBack,
            4 => Refusal::TransmitFull,
            5 => Refusal::HostFull,
            6 => Refusal::RunsFull,
            7 => Refusal::PeriodTooLong,
            8 => Refusal::BufferTooShort,
            9 => Refusal::UnfitList,
            _ => unreachable!("the calls answer 0 to 9"),
        }
    }
}

impl fmt::Display for Refusal {
    fn fmt(&self, f: &mut fmt::Formatter<'_>) -> fmt::Result {
        f.write_str(match self {
            Refusal::RepeatedOffset => "two of the sixteen offsets are equal",
            Refusal::DatePastEnd => "the cycle now is 2^59 or more",
            Refusal::DateWentBack => "the cycle now is below that of the last call",
            Refusal::TransmitFull => "the transmit side is full: 1,152 bytes left or in flight",
            Refusal::HostFull => "the host's queue would hold more than 1,024 bytes",
            Refusal::RunsFull => "64 runs of host bytes wait, and this one would be another",
            Refusal::PeriodTooLong => "the clock period is above 1,000,000 cycles",
            Refusal::BufferTooShort => "the lent buffer is below 1,152 bytes",
            Refusal::UnfitList => "the frames are not in order one after the other, or more than 1,024",
        })
    }
}

impl std::error::Error for Refusal {}
