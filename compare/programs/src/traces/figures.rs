//! Lists of frames for `figures`: of every length and at every date, touching, empty, with equal quiet stretches, each
//! way to be refused, and lines that are no call. They draw from random numbers of their own: where another profile has
//! such a line, its other calls are those that it has without.
use super::generator::Generator;
use super::random::Random;
use super::steps::EVEN;
use uart_box::calls::{Call, LONGEST_LINE};
use uart_box::figures::{Frame, MOST_FRAMES};

/// No numbers of 64 bits.
const NO_NUMBERS: [&str; 10] =
    ["18446744073709551616", "0x10000000000000000", "-", "-1", "+1", "1_000", "0X10", "0x", "1\t", "1.5"];

/// The words of one digit that a line has at most, after its name.
const MOST_WORDS: usize = (LONGEST_LINE - "figures".len()) / 2;
/// The last date of 64 bits.
const LAST: u64 = u64::MAX;
/// Starts and ends at both ends of the dates: lists that are taken, then lists that are refused.
const EXTREMES: [&[(u64, u64)]; 12] = [
    &[(0, 0)],
    &[(0, LAST)],
    &[(LAST, LAST)],
    &[(0, 0), (LAST, LAST)],
    &[(0, LAST), (LAST, LAST)],
    &[(0, 0), (0, LAST)],
    &[(0, 1 << 63), (1 << 63, LAST)],
    &[(0, 0), (0, 0), (LAST, LAST), (LAST, LAST)],
    &[(1, 0)],
    &[(LAST, 0)],
    &[(0, LAST), (0, LAST)],
    &[(0, LAST), (LAST - 1, LAST)],
];

impl Generator {
    /// A list of frames, and now and then a call on the UART, or on none.
    pub fn figures(&mut self) {
        self.figures_line();
        if self.frame_random.chance(25) {
            self.step(&EVEN);
        }
    }

    /// A list of frames in so many of a hundred cases, nothing in the others.
    pub fn figures_in(&mut self, percent: u64) {
        if self.frame_random.chance(percent) {
            self.figures_line();
        }
    }

    fn figures_line(&mut self) {
        let random = &mut self.frame_random;
        let frames = frames(random);
        let line = match random.below(40) {
            0 | 1 => lone_start(&frames),
            2..=4 => no_number(random, &frames),
            5..=10 => written_otherwise(random, &frames),
            _ => Call::Figures { frames }.line(),
        };
        self.line(line.as_bytes());
    }

    /// A line that is one byte shorter than a line may be, as long, or one longer: of few long words up to as many words
    /// as there is room for.
    pub fn long_figures(&mut self) {
        let random = &mut self.frame_random;
        let length = LONGEST_LINE - 1 + random.below(3) as usize;
        let count = random.pick(&[1, 2, MOST_FRAMES - 1, MOST_FRAMES, MOST_WORDS / 2]);
        let words = if count > MOST_FRAMES { vec!["7".to_owned(); MOST_WORDS] } else { words(&in_turn(random, count)) };
        // As many zeros before each number as there is room for, and spaces at the end.
        let width = (length - "figures".len()) / words.len() - 1;
        let mut line = "figures".to_owned();
        for word in words {
            line += " ";
            line += &"0".repeat(width - word.len());
            line += &word;
        }
        line += &" ".repeat(length - line.len());
        self.line(line.as_bytes());
    }
}

/// A list that is taken, mostly.
fn frames(random: &mut Random) -> Vec<Frame> {
    if random.chance(3) {
        return random.pick(&EXTREMES).iter().map(|&(start, end)| Frame { start, end }).collect();
    }
    let count = count(random);
    let mut frames = in_turn(random, count);
    if random.chance(25) {
        break_one(random, &mut frames);
    }
    frames
}

/// None, one, two, a few, some; seldom as many as a list may have, and more.
fn count(random: &mut Random) -> usize {
    match random.below(200) {
        0..=9 => 0,
        10..=29 => 1,
        30..=59 => 2,
        60..=169 => 3 + random.below(6) as usize,
        170..=196 => 9 + random.below(30) as usize,
        _ => random.pick(&[MOST_FRAMES - 1, MOST_FRAMES, MOST_FRAMES, MOST_FRAMES + 1, MOST_FRAMES + 1, 1_100]),
    }
}

/// Frames one after the other: near each other or far apart, from 0 on, from anywhere, or up to the last date.
fn in_turn(random: &mut Random, count: usize) -> Vec<Frame> {
    // With lengths and stretches of this time at most, the list fits into the dates of 64 bits.
    let room = LAST / (2 * count as u64 + 2);
    let most = random.pick(&[1, 2, 3, 5, 40, 13_440, 1 << 40, room, room]).min(room);
    let shortest = random.pick(&[0, 0, 1, most]);
    let nearest = random.pick(&[0, 0, 0, 1, most]);
    let mut date = match random.below(4) {
        0 => 0,
        1 => random.u64() / 2,
        _ => random.below(most),
    };
    let mut frames = Vec::with_capacity(count);
    for _ in 0..count {
        let end = date.saturating_add(time(random, shortest, most));
        frames.push(Frame { start: date, end });
        date = end.saturating_add(time(random, nearest, most));
    }
    if random.chance(40) {
        stretch_one(random, &mut frames, most);
    }
    if random.chance(15) {
        let by = frames.last().map_or(0, |last| LAST - last.end);
        move_all(&mut frames, by);
    }
    frames
}

/// The least, one more, the most, or between.
fn time(random: &mut Random, least: u64, most: u64) -> u64 {
    match random.below(8) {
        0 | 1 => least,
        2 => most.min(least + 1),
        3 => most,
        _ => least + random.below(most - least + 1),
    }
}

/// One frame longer, or the stretch before it, the last or any: what comes after is as much later.
fn stretch_one(random: &mut Random, frames: &mut [Frame], by: u64) {
    let Some(last) = frames.last() else { return };
    let by = by.min(LAST - last.end);
    let at = if random.chance(40) { frames.len() - 1 } else { random.below(frames.len() as u64) as usize };
    move_all(&mut frames[at..], by);
    if random.chance(50) {
        frames[at].start -= by;
    }
}

fn move_all(frames: &mut [Frame], by: u64) {
    for frame in frames {
        frame.start += by;
        frame.end += by;
    }
}

/// A frame that ends before it starts, or one that starts before the one before it ends, mostly by one.
fn break_one(random: &mut Random, frames: &mut [Frame]) {
    if frames.is_empty() {
        return;
    }
    let at = random.below(frames.len() as u64) as usize;
    let by = if random.chance(70) { 1 } else { 1 + random.below(1_000) };
    if at == 0 || random.chance(50) {
        frames[at].end = frames[at].start.saturating_sub(by);
    } else {
        frames[at].start = frames[at - 1].end.saturating_sub(by);
    }
}

fn words(frames: &[Frame]) -> Vec<String> {
    frames.iter().flat_map(|frame| [frame.start, frame.end]).map(|date| date.to_string()).collect()
}

/// A start without its end after the frames.
fn lone_start(frames: &[Frame]) -> String {
    let start = frames.last().map_or(0, |last| last.end);
    format!("{} {start}", Call::Figures { frames: frames.to_vec() }.line())
}

/// One word that is no number in place of another, or as the last one.
fn no_number(random: &mut Random, frames: &[Frame]) -> String {
    let mut words = words(frames);
    let wrong = random.pick(&NO_NUMBERS).to_owned();
    let at = random.below(words.len() as u64 + 1) as usize;
    if at < words.len() {
        words[at] = wrong;
    } else {
        words.push(wrong);
    }
    format!("figures {}", words.join(" "))
}

/// Hexadecimal of both cases, leading zeros, and more than one space.
fn written_otherwise(random: &mut Random, frames: &[Frame]) -> String {
    let mut line = " ".repeat(random.below(2) as usize) + "figures";
    for date in frames.iter().flat_map(|frame| [frame.start, frame.end]) {
        line += match random.below(8) {
            0 => "   ",
            _ => " ",
        };
        line += &match random.below(5) {
            0 => format!("0x{date:x}"),
            1 => format!("0x{date:X}"),
            2 => format!("0x{date:020x}"),
            3 => format!("{date:022}"),
            _ => date.to_string(),
        };
    }
    line + &" ".repeat(random.below(3) as usize)
}
