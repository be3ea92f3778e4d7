//! The figures of a line, from the sentences of the request N2. The published Rust has no such call: here it is not the
//! Rust that another program is compared with, but the same sentences written a second time, on their own.
use crate::the_box::Answer;

/// The frames that a list has at most.
pub const MOST_FRAMES: usize = 1_024;

/// A frame, from its start to its end, in subcycles.
#[derive(Clone, Copy, Debug, PartialEq, Eq)]
pub struct Frame {
    pub start: u64,
    pub end: u64,
}

/// What is reported of a list of frames. Times are subcycles.
#[derive(Debug, PartialEq, Eq)]
pub struct Figures {
    pub busy: u64,
    pub shortest: u64,
    pub longest: u64,
    pub quiet: u64,
    /// The place of the frame before the quiet stretch, from 0.
    pub at: Option<usize>,
    pub mean: u64,
    pub remainder: u64,
}

/// The figures of a list, or number 9.
#[must_use]
pub fn answer(frames: &[Frame]) -> Answer {
    figures(frames).map_or(Answer::Refused(9), Answer::Figures)
}

/// None where a frame ends before it starts, starts before the one before it ends, or the list is too long.
#[must_use]
pub fn figures(frames: &[Frame]) -> Option<Figures> {
    let turned = frames.iter().any(|frame| frame.end < frame.start);
    let overlapping = frames.windows(2).any(|pair| pair[1].start < pair[0].end);
    if turned || overlapping || frames.len() > MOST_FRAMES {
        return None;
    }
    let lengths: Vec<u64> = frames.iter().map(|frame| frame.end - frame.start).collect();
    let stretches: Vec<u64> = frames.windows(2).map(|pair| pair[1].start - pair[0].end).collect();
    // One after the other, the frames have no more than 2^64 - 1 subcycles together.
    let busy: u64 = lengths.iter().sum();
    let count = lengths.len() as u64;
    let quiet = stretches.iter().max().copied();
    Some(Figures {
        busy,
        shortest: lengths.iter().min().copied().unwrap_or(0),
        longest: lengths.iter().max().copied().unwrap_or(0),
        quiet: quiet.unwrap_or(0),
        at: stretches.iter().position(|&stretch| Some(stretch) == quiet),
        mean: busy.checked_div(count).unwrap_or(0),
        remainder: busy.checked_rem(count).unwrap_or(0),
    })
}
