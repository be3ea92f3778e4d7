//! The figures of a line: the request's words and readings by hand, and laws that hold of every list.
use uart_box::figures::{Figures, Frame, figures};

fn frames(dates: &[(u64, u64)]) -> Vec<Frame> {
    dates.iter().map(|&(start, end)| Frame { start, end }).collect()
}

fn of(dates: &[(u64, u64)]) -> Option<Figures> {
    figures(&frames(dates))
}

/// So many frames of one subcycle, each touching the next.
fn touching(count: u64) -> Vec<(u64, u64)> {
    (0..count).map(|place| (place, place + 1)).collect()
}

#[test]
fn figures_of_few_frames() {
    let none = Figures { busy: 0, shortest: 0, longest: 0, quiet: 0, at: None, mean: 0, remainder: 0 };
    assert_eq!(of(&[]), Some(none));
    let one = Figures { busy: 4, shortest: 4, longest: 4, quiet: 0, at: None, mean: 4, remainder: 0 };
    assert_eq!(of(&[(5, 9)]), Some(one));
    let four = Figures { busy: 20, shortest: 1, longest: 10, quiet: 5, at: Some(1), mean: 5, remainder: 0 };
    assert_eq!(of(&[(0, 10), (14, 20), (25, 28), (30, 31)]), Some(four));
    let touching = Figures { busy: 3, shortest: 1, longest: 2, quiet: 0, at: Some(0), mean: 1, remainder: 1 };
    assert_eq!(of(&[(0, 1), (1, 3)]), Some(touching));
    let equal = Figures { busy: 5, shortest: 0, longest: 3, quiet: 2, at: Some(1), mean: 1, remainder: 1 };
    assert_eq!(of(&[(1, 2), (3, 6), (8, 8), (10, 11)]), Some(equal));
}

#[test]
fn each_refusal_on_both_sides() {
    assert!(of(&[(5, 5)]).is_some() && of(&[(5, 4)]).is_none());
    assert!(of(&[(0, 5), (5, 6)]).is_some() && of(&[(0, 5), (4, 6)]).is_none());
    assert!(of(&[(0, 2), (2, 9), (8, 9)]).is_none());
    assert!(of(&touching(1_024)).is_some() && of(&touching(1_025)).is_none());
}

#[test]
fn the_largest_dates() {
    let whole = of(&[(0, u64::MAX)]).expect("one frame");
    assert_eq!((whole.busy, whole.mean, whole.remainder), (u64::MAX, u64::MAX, 0));
    let halves = of(&[(0, 1 << 63), (1 << 63, u64::MAX)]).expect("two frames");
    assert_eq!((halves.busy, halves.mean, halves.remainder), (u64::MAX, u64::MAX / 2, 1));
    let ends = of(&[(0, 0), (u64::MAX, u64::MAX)]).expect("two frames");
    assert_eq!((ends.busy, ends.quiet, ends.at), (0, u64::MAX, Some(0)));
}

/// All lists of up to three frames with dates below 5: moved as one nothing changes, and seen from the other end of time
/// only the place does, which is then the latest.
#[test]
fn moved_or_turned_around_a_list_has_the_same_figures() {
    let dates: Vec<(u64, u64)> = (0..25).map(|n| (n / 5, n % 5)).collect();
    let mut lists: Vec<Vec<(u64, u64)>> = vec![vec![]];
    for _ in 0..3 {
        let longer = lists.iter().flat_map(|list| dates.iter().map(|&frame| [list.clone(), vec![frame]].concat()));
        lists = lists.iter().cloned().chain(longer.collect::<Vec<_>>()).collect();
    }
    let mut taken = 0;
    for list in lists {
        let moved: Vec<(u64, u64)> = list.iter().map(|&(start, end)| (start + 1_000, end + 1_000)).collect();
        assert_eq!(of(&list), of(&moved), "{list:?}");
        let turned: Vec<(u64, u64)> = list.iter().rev().map(|&(start, end)| (9 - end, 9 - start)).collect();
        let (one, other) = (of(&list), of(&turned));
        assert_eq!(one.is_some(), other.is_some(), "{list:?}");
        let (Some(one), Some(other)) = (one, other) else { continue };
        taken += 1;
        let latest = |at: usize| list.len() - 2 - at;
        assert!(one.at.zip(other.at).is_none_or(|(at, turned)| at <= latest(turned)), "{list:?}");
        assert_eq!(one, Figures { at: one.at, ..other }, "{list:?}");
        assert_eq!(one.busy, one.mean * list.len() as u64 + one.remainder);
    }
    assert!(taken > 100, "only {taken} lists were taken");
}
