//! Figures of a line from its frames: how busy it was.
use crate::{calls, Refusal};

/// The longest list of frames that [`figures()`] takes.
pub const FRAMES: usize = 1024;

/// What [`figures()`] tells of a line's frames. All are subcycles, 1/32 of a cycle, but for the place. No frame gives zeros.
#[derive(Clone, Copy, Debug, PartialEq, Eq)]
pub struct Figures {
    /// All frames together.
    pub busy: u64,
    /// The shortest frame.
    pub shortest: u64,
    /// The longest frame.
    pub longest: u64,
    /// The longest quiet stretch between two frames; 0 with fewer than two.
    pub quiet: u64,
    /// Its place: that of the frame before it, from 0. Of stretches that are as long it is the earliest; none with fewer than
    /// two frames.
    pub at: Option<usize>,
    /// The mean frame: `busy` divided by the number of frames,
    pub mean: u64,
    /// and what that division leaves.
    pub remainder: u64,
}

/// The figures of frames, each a start and an end in subcycles. A frame may start where the one before it ends, and may have
/// no length.
///
/// # Errors
/// [`Refusal::UnfitList`] where a frame ends before it starts or starts before the one before it ends, or there are more
/// than [`FRAMES`].
pub fn figures(frames: &[(u64, u64)]) -> Result<Figures, Refusal> {
    // The call has starts and ends apart. Of a longer list one frame too many goes along, and the call refuses it: no more than
    // these decide, which is `first-decide`, Exactly of crates/figures.
    let (mut starts, mut ends) = ([0; FRAMES + 1], [0; FRAMES + 1]);
    for ((start, end), frame) in starts.iter_mut().zip(&mut ends).zip(frames) {
        (*start, *end) = *frame;
    }
    let count = frames.len().min(FRAMES + 1);
    let given = calls::figures(&starts[..count], &ends[..count]);
    Refusal::of(given.number)?;
    Ok(Figures {
        busy: given.busy,
        shortest: given.shortest,
        longest: given.longest,
        quiet: given.quiet,
        at: given.placed.then_some(given.at as usize),
        mean: given.mean,
        remainder: given.remainder,
    })
}
