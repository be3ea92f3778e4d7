//! What a dated call answers beside its own result.
use crate::plain::{PlainNotice, PlainReport, PlainRow};
use std::fmt;

/// The modes that the model refuses by name: diag.rs's `UartFeature`.
#[derive(Clone, Copy, Debug, PartialEq, Eq, Hash)]
#[allow(missing_docs)]
pub enum Feature {
    Loopback,
    InvertedRx,
    Autobaud,
    NoStopBit,
    FifoSize,
    Rs485,
    TxFlowControl,
    RxFlowControl,
    InvertedTx,
    Irda,
    TxBreak,
}

/// In the order of their numbers.
pub(crate) const FEATURES: [Feature; 11] = [
    Feature::Loopback,
    Feature::InvertedRx,
    Feature::Autobaud,
    Feature::NoStopBit,
    Feature::FifoSize,
    Feature::Rs485,
    Feature::TxFlowControl,
    Feature::RxFlowControl,
    Feature::InvertedTx,
    Feature::Irda,
    Feature::TxBreak,
];

/// What a call notes besides an overflow of the receive FIFO, which is counted: diag.rs's `Unsupported`.
#[derive(Clone, Copy, Debug, PartialEq, Eq, Hash)]
pub enum Notice {
    /// A byte written to a full FIFO was dropped.
    UartOverflow,
    /// A read of FIFO found it empty.
    UartEmptyRead,
    /// A byte was sent on a source without a frequency: its SCLK_SEL.
    UartClock(u32),
    /// A byte was received on a source without a frequency: its SCLK_SEL.
    UartReceiveClock(u32),
    /// A mode was set that the model does not have.
    UartFeature(Feature),
}

impl Notice {
    pub(crate) fn of(notice: PlainNotice) -> Notice {
        match notice.what {
            1 => Notice::UartOverflow,
            2 => Notice::UartEmptyRead,
            3 => Notice::UartClock(notice.which),
            4 => Notice::UartReceiveClock(notice.which),
            5 => Notice::UartFeature(FEATURES[notice.which as usize]),
            _ => unreachable!("a notice is 1 to 5"),
        }
    }
}

/// Level, wake, overflows, notices and passes, as a dated call leaves them.
#[derive(Clone, Copy, PartialEq, Eq)]
pub struct Report(PlainReport);

impl Report {
    #[inline]
    pub(crate) fn of(report: PlainReport) -> Report {
        Report(report)
    }

    /// The interrupt level.
    #[must_use]
    pub fn level(&self) -> bool {
        self.0.level
    }

    /// The cycle at which the UART wants [`crate::Uart::wake`] next, if one is armed. It may be past.
    #[must_use]
    pub fn wake(&self) -> Option<u64> {
        self.0.wake.set.then_some(self.0.wake.at)
    }

    /// The bytes that were lost in this call because 128 were held.
    #[must_use]
    pub fn overflows(&self) -> u64 {
        self.0.overflows
    }

    /// The passes that settling made.
    #[must_use]
    pub fn passes(&self) -> u64 {
        self.0.passes
    }

    /// At most eight, in order.
    pub fn notices(&self) -> impl Iterator<Item = Notice> + '_ {
        self.0.notices[..self.0.noted].iter().map(|&notice| Notice::of(notice))
    }
}

impl fmt::Debug for Report {
    fn fmt(&self, f: &mut fmt::Formatter<'_>) -> fmt::Result {
        f.debug_struct("Report")
            .field("level", &self.level())
            .field("wake", &self.wake())
            .field("overflows", &self.overflows())
            .field("passes", &self.passes())
            .field("notices", &self.notices().collect::<Vec<_>>())
            .finish()
    }
}

/// What [`crate::Uart::write_row`] answers: how many bytes were written, and the report of those writes together.
#[derive(Clone, Copy, PartialEq, Eq)]
pub struct Row {
    made: usize,
    times: [u64; 2],
    report: Report,
}

impl Row {
    #[inline]
    pub(crate) fn of(reply: &PlainRow, report: PlainReport) -> Row {
        Row { made: reply.made as usize, times: [reply.first, reply.second], report: Report(report) }
    }

    /// How many bytes of the row were written, those among them that a full FIFO dropped. The rest is to be given again.
    #[must_use]
    pub fn made(&self) -> usize {
        self.made
    }

    /// The interrupt level after the last write.
    #[must_use]
    pub fn level(&self) -> bool {
        self.report.level()
    }

    /// The cycle at which the UART wants [`crate::Uart::wake`] next, if one is armed. It may be past.
    #[must_use]
    pub fn wake(&self) -> Option<u64> {
        self.report.wake()
    }

    /// The received bytes that were lost in this call because 128 were held.
    #[must_use]
    pub fn overflows(&self) -> u64 {
        self.report.overflows()
    }

    /// The passes that settling made, over all writes.
    #[must_use]
    pub fn passes(&self) -> u64 {
        self.report.passes()
    }

    /// Each notice of the writes once, with how many of them noted it: two at most.
    pub fn notices(&self) -> impl Iterator<Item = (Notice, u64)> + '_ {
        self.report.notices().zip(self.times)
    }
}

impl fmt::Debug for Row {
    fn fmt(&self, f: &mut fmt::Formatter<'_>) -> fmt::Result {
        f.debug_struct("Row")
            .field("made", &self.made())
            .field("level", &self.level())
            .field("wake", &self.wake())
            .field("overflows", &self.overflows())
            .field("passes", &self.passes())
            .field("notices", &self.notices().collect::<Vec<_>>())
            .finish()
    }
}
