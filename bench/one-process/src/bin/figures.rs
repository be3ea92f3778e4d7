//! The figures of 1,024 frames, by the proved call and twice by plain Rust over the same pairs: each is a function of its own,
//! which callgrind counts. All must give the same figures, or it stops.
use std::hint::black_box;
use wondraxu::{FRAMES, Figures};

#[inline(never)]
fn proved(frames: &[(u64, u64)]) -> Option<Figures> {
    wondraxu::figures(frames).ok()
}

/// The request's sentences, a pass for each.
#[inline(never)]
fn iterators(frames: &[(u64, u64)]) -> Option<Figures> {
    let lengths = || frames.iter().map(|&(start, end)| end - start);
    let stretches = || frames.windows(2).map(|two| two[1].0 - two[0].1);
    let turned = frames.iter().any(|&(start, end)| end < start);
    if turned || frames.windows(2).any(|two| two[1].0 < two[0].1) || frames.len() > FRAMES {
        return None;
    }
    let busy: u64 = lengths().sum();
    let count = frames.len() as u64;
    let quiet = stretches().max();
    Some(Figures {
        busy,
        shortest: lengths().min().unwrap_or(0),
        longest: lengths().max().unwrap_or(0),
        quiet: quiet.unwrap_or(0),
        at: stretches().position(|stretch| Some(stretch) == quiet),
        mean: busy.checked_div(count).unwrap_or(0),
        remainder: busy.checked_rem(count).unwrap_or(0),
    })
}

/// All in one pass.
#[inline(never)]
fn one_loop(frames: &[(u64, u64)]) -> Option<Figures> {
    if frames.len() > FRAMES {
        return None;
    }
    let (mut busy, mut shortest, mut longest, mut quiet, mut at, mut free) = (0, u64::MAX, 0, 0, None, 0);
    for (place, &(start, end)) in frames.iter().enumerate() {
        if end < start || start < free {
            return None;
        }
        if place > 0 && (at.is_none() || start - free > quiet) {
            (quiet, at) = (start - free, Some(place - 1));
        }
        let length = end - start;
        busy += length;
        shortest = shortest.min(length);
        longest = longest.max(length);
        free = end;
    }
    let count = frames.len() as u64;
    Some(Figures {
        busy,
        shortest: if frames.is_empty() { 0 } else { shortest },
        longest,
        quiet,
        at,
        mean: busy.checked_div(count).unwrap_or(0),
        remainder: busy.checked_rem(count).unwrap_or(0),
    })
}

/// Frames and stretches of all lengths to 1,000 subcycles, in no order.
fn list() -> Vec<(u64, u64)> {
    let (mut frames, mut free) = (Vec::new(), 0);
    for n in 0..FRAMES as u64 {
        let start = free + n * 619 % 1000;
        let end = start + n * 383 % 1000;
        frames.push((start, end));
        free = end;
    }
    frames
}

fn main() {
    let frames = black_box(list());
    let figures = proved(&frames);
    assert!(figures.is_some());
    assert_eq!(figures, iterators(&frames));
    assert_eq!(figures, one_loop(&frames));
    println!("{} frames", frames.len());
}
