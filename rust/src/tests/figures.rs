//! The figures of a line: the marks of the request, its limits, and random lists beside its sentences written plainly.
use crate::{figures, Figures, Refusal, FRAMES};

const LAST: u64 = u64::MAX;

/// The request's sentences, one by one.
fn plainly(frames: &[(u64, u64)]) -> Result<Figures, Refusal> {
    let turned = frames.iter().any(|&(start, end)| end < start);
    let overlapping = frames.windows(2).any(|two| two[1].0 < two[0].1);
    if turned || overlapping || frames.len() > 1024 {
        return Err(Refusal::UnfitList);
    }
    let lengths: Vec<u64> = frames.iter().map(|&(start, end)| end - start).collect();
    let stretches: Vec<u64> = frames.windows(2).map(|two| two[1].0 - two[0].1).collect();
    let busy = lengths.iter().map(|&length| u128::from(length)).sum::<u128>();
    let count = frames.len().max(1) as u128;
    let number = |n: u128| u64::try_from(n).expect("the frames have 64 bits together");
    let quiet = stretches.iter().max();
    Ok(Figures {
        busy: number(busy),
        shortest: lengths.iter().min().copied().unwrap_or(0),
        longest: lengths.iter().max().copied().unwrap_or(0),
        quiet: quiet.copied().unwrap_or(0),
        at: quiet.and_then(|longest| stretches.iter().position(|stretch| stretch == longest)),
        mean: number(busy / count),
        remainder: number(busy % count),
    })
}

/// Seven figures in the order of a replay line.
#[track_caller]
fn gives(
    frames: &[(u64, u64)],
    [busy, shortest, longest, quiet]: [u64; 4],
    at: Option<usize>,
    [mean, remainder]: [u64; 2],
) {
    let wanted = Figures { busy, shortest, longest, quiet, at, mean, remainder };
    assert_eq!(figures(frames), Ok(wanted));
    assert_eq!(plainly(frames), Ok(wanted));
}

#[track_caller]
fn refused(frames: &[(u64, u64)]) {
    assert_eq!(figures(frames), Err(Refusal::UnfitList));
    assert_eq!(plainly(frames), Err(Refusal::UnfitList));
}

#[test]
fn the_marks_of_the_request() {
    gives(&[], [0; 4], None, [0; 2]);
    gives(&[(5, 9)], [4, 4, 4, 0], None, [4, 0]);
    gives(&[(0, 10), (15, 20), (25, 28)], [18, 3, 10, 5], Some(0), [6, 0]);
    gives(&[(0, 10), (14, 20), (25, 28), (30, 31)], [20, 1, 10, 5], Some(1), [5, 0]);
    gives(&[(0, 1), (1, 3)], [3, 1, 2, 0], Some(0), [1, 1]);
    gives(&[(7, 7)], [0; 4], None, [0; 2]);
    gives(&[(7, 7), (7, 7)], [0; 4], Some(0), [0; 2]);
    gives(&[(0, 5), (5, 6)], [6, 1, 5, 0], Some(0), [3, 0]);
    refused(&[(5, 4)]);
    refused(&[(0, 5), (4, 6)]);
}

/// The earliest of the longest stretches, wherever it stands.
#[test]
fn ties_for_the_earliest_place() {
    gives(&[(0, 1), (3, 4), (6, 7), (9, 10)], [4, 1, 1, 2], Some(0), [1, 0]);
    gives(&[(0, 1), (2, 4), (6, 7), (9, 10)], [5, 1, 2, 2], Some(1), [1, 1]);
    gives(&[(0, 1), (2, 4), (5, 7), (9, 10)], [6, 1, 2, 2], Some(2), [1, 2]);
}

#[test]
fn dates_of_64_bits() {
    gives(&[(0, LAST)], [LAST, LAST, LAST, 0], None, [LAST, 0]);
    gives(&[(LAST, LAST)], [0; 4], None, [0; 2]);
    gives(&[(0, 0), (LAST, LAST)], [0, 0, 0, LAST], Some(0), [0; 2]);
    gives(&[(0, LAST), (LAST, LAST)], [LAST, 0, LAST, 0], Some(0), [LAST / 2, 1]);
    gives(&[(0, 1 << 63), (1 << 63, LAST)], [LAST, LAST >> 1, 1 << 63, 0], Some(0), [LAST / 2, 1]);
    refused(&[(LAST, 0)]);
    refused(&[(0, LAST), (LAST - 1, LAST)]);
}

/// So many frames of one subcycle, each where the one before it ends.
fn touching(count: u64) -> Vec<(u64, u64)> {
    (0..count).map(|start| (start, start + 1)).collect()
}

#[test]
fn a_list_of_1024_frames_is_taken_and_one_of_1025_is_not() {
    assert_eq!(FRAMES, 1024);
    gives(&touching(1023), [1023, 1, 1, 0], Some(0), [1, 0]);
    gives(&touching(1024), [1024, 1, 1, 0], Some(0), [1, 0]);
    for count in [1025, 1026, 2048, 100_000] {
        refused(&touching(count));
    }
    // The last frame of 1,024 counts in every figure, and the last stretch has place 1,022.
    let mut frames = touching(1024);
    frames[1023] = (2000, 5000);
    gives(&frames, [4023, 1, 3000, 977], Some(1022), [3, 951]);
    frames[1023] = (2000, 1999);
    refused(&frames);
    frames[1023] = (1022, 2000);
    refused(&frames);
}

/// Numbers that are the same in every run (Steele and Vigna's SplitMix64).
struct Random(u64);

impl Random {
    fn next(&mut self) -> u64 {
        self.0 = self.0.wrapping_add(0x9E37_79B9_7F4A_7C15);
        let mixed = (self.0 ^ (self.0 >> 30)).wrapping_mul(0xBF58_476D_1CE4_E5B9);
        let mixed = (mixed ^ (mixed >> 27)).wrapping_mul(0x94D0_49BB_1331_11EB);
        mixed ^ (mixed >> 31)
    }

    fn below(&mut self, limit: u64) -> u64 {
        self.next() % limit
    }

    /// Few frames most often, and now and then about as many as a list may have.
    fn count(&mut self) -> u64 {
        match self.below(40) {
            0 => 1020 + self.below(8),
            1 => self.below(1024),
            2..=9 => self.below(40),
            _ => self.below(6),
        }
    }

    /// Frames in order, of lengths and stretches below `most`, so that few values have many ties; as many as there are dates for.
    fn frames(&mut self) -> Vec<(u64, u64)> {
        let count = self.count();
        let most = [1, 2, 4, 1000, 1 << 32, LAST / 1024, LAST][self.below(7) as usize];
        let (mut frames, mut free) = (Vec::new(), if self.below(3) == 0 { self.next() } else { self.below(10) });
        for _ in 0..count {
            let start = free.saturating_add(self.below(most));
            let end = start.saturating_add(self.below(most));
            frames.push((start, end));
            free = end;
        }
        frames
    }

    /// One start or end a little lower, which most often makes the list unfit.
    fn spoil(&mut self, frames: &mut [(u64, u64)]) {
        if frames.is_empty() {
            return;
        }
        let place = self.below(frames.len() as u64) as usize;
        let by = 1 + self.below(3);
        let (start, end) = &mut frames[place];
        let date = if self.below(2) == 0 { start } else { end };
        *date = date.saturating_sub(by);
    }
}

#[test]
fn random_lists() {
    let mut random = Random(2);
    let (mut taken, mut unfit) = (0, 0);
    for _ in 0..20_000 {
        let mut frames = random.frames();
        if random.below(3) == 0 {
            random.spoil(&mut frames);
        }
        let wanted = plainly(&frames);
        assert_eq!(figures(&frames), wanted, "{frames:?}");
        *if wanted.is_ok() { &mut taken } else { &mut unfit } += 1;
    }
    assert!(taken > 10_000 && unfit > 2_000, "{taken} lists are taken, and {unfit} refused");
}
