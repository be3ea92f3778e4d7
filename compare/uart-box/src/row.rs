//! What a row answers: the answers of its writes, added up.
use crate::diag::Unsupported;
use crate::the_box::{Dated, SENT_BYTES};

/// The writes that one row makes at most.
pub const LONGEST_ROW: usize = SENT_BYTES;

/// How many writes were made, and their reports as one.
#[derive(Debug)]
pub struct Row {
    pub made: u64,
    pub level: bool,
    /// In cycles.
    pub wake: Option<u64>,
    pub overflows: u64,
    /// Each different notice once, in the order in which they first came, with how often it came.
    pub(crate) notices: Vec<(Unsupported, u64)>,
    pub passes: u64,
}

impl Row {
    /// No write yet: the level and the wake as they stand.
    pub(crate) fn unwritten(level: bool, wake: Option<u64>) -> Row {
        Row { made: 0, level, wake, overflows: 0, notices: Vec::new(), passes: 0 }
    }

    /// One write more, a dropped one too: the level and the wake are those after the last.
    pub(crate) fn add(&mut self, written: &Dated) {
        self.made += 1;
        self.level = written.level;
        self.wake = written.wake;
        self.overflows += written.overflows;
        self.passes += written.passes;
        for &notice in &written.notices {
            self.count(notice);
        }
    }

    fn count(&mut self, notice: Unsupported) {
        match self.notices.iter_mut().find(|(known, _)| *known == notice) {
            Some((_, times)) => *times += 1,
            None => self.notices.push((notice, 1)),
        }
    }
}
