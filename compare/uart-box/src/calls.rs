//! The calls of the replay format: reading one from a line, and writing one as a line.
use crate::figures::Frame;
use std::fmt::Write;

/// The longest line that is read as a call, in bytes.
pub const LONGEST_LINE: usize = 65_536;
/// The longest buffer that a call may lend, in bytes.
pub const LONGEST_BUFFER: u64 = 8_192;

/// The sixteen offsets and the sixteen reset words, in document 01's order.
#[derive(Clone, Debug, PartialEq, Eq)]
pub struct Setup {
    pub offsets: [u32; 16],
    pub reset_words: [u32; 16],
}

/// One call. Dates are cycles, a clock period is cycles too.
#[derive(Clone, Debug, PartialEq, Eq)]
pub enum Call {
    Setup(Box<Setup>),
    Read { now: u64, offset: u32 },
    Write { now: u64, offset: u32, value: u32 },
    WriteRow { now: u64, bytes: Vec<u8> },
    Receive { now: u64, at: u64, bytes: Vec<u8> },
    Wake { now: u64 },
    Watch { now: u64, watched: bool },
    Reset { now: u64 },
    PowerDown { now: u64 },
    Clock { now: u64, period: u64 },
    TakeTx { now: u64, length: usize },
    TakeWritten { length: usize },
    HasLeft,
    HostPending,
    Figures { frames: Vec<Frame> },
}

impl Call {
    /// The date of a dated call, in cycles.
    #[must_use]
    pub fn now(&self) -> Option<u64> {
        match *self {
            Call::Read { now, .. }
            | Call::Write { now, .. }
            | Call::WriteRow { now, .. }
            | Call::Receive { now, .. }
            | Call::Wake { now }
            | Call::Watch { now, .. }
            | Call::Reset { now }
            | Call::PowerDown { now }
            | Call::Clock { now, .. }
            | Call::TakeTx { now, .. } => Some(now),
            Call::Setup(_) | Call::TakeWritten { .. } | Call::HasLeft | Call::HostPending | Call::Figures { .. } => {
                None
            }
        }
    }

    /// The call as a line of a trace, without its line feed.
    #[must_use]
    pub fn line(&self) -> String {
        match self {
            Call::Setup(setup) => setup_line(setup),
            Call::Read { now, offset } => format!("read {now} {offset}"),
            Call::Write { now, offset, value } => format!("write {now} {offset} 0x{value:x}"),
            Call::WriteRow { now, bytes } => format!("write_row {now} {}", hex(bytes)),
            Call::Receive { now, at, bytes } => format!("receive {now} {at} {}", hex(bytes)),
            Call::Wake { now } => format!("wake {now}"),
            Call::Watch { now, watched } => format!("watch {now} {}", u8::from(*watched)),
            Call::Reset { now } => format!("reset {now}"),
            Call::PowerDown { now } => format!("power_down {now}"),
            Call::Clock { now, period } => format!("clock {now} {period}"),
            Call::TakeTx { now, length } => format!("take_tx {now} {length}"),
            Call::TakeWritten { length } => format!("take_written {length}"),
            Call::HasLeft => "has_left".to_owned(),
            Call::HostPending => "host_pending".to_owned(),
            Call::Figures { frames } => figures_line(frames),
        }
    }
}

fn setup_line(setup: &Setup) -> String {
    let mut line = "setup".to_owned();
    for offset in setup.offsets {
        let _ = write!(line, " {offset}");
    }
    for word in setup.reset_words {
        let _ = write!(line, " 0x{word:x}");
    }
    line
}

fn figures_line(frames: &[Frame]) -> String {
    let mut line = "figures".to_owned();
    for frame in frames {
        let _ = write!(line, " {} {}", frame.start, frame.end);
    }
    line
}

fn hex(bytes: &[u8]) -> String {
    if bytes.is_empty() {
        return "-".to_owned();
    }
    let mut text = String::with_capacity(2 * bytes.len());
    for byte in bytes {
        let _ = write!(text, "{byte:02x}");
    }
    text
}

/// The words of a line: only the space separates them.
struct Words<'a> {
    call: &'a [u8],
    rest: Vec<&'a [u8]>,
    next: usize,
}

impl<'a> Words<'a> {
    fn word(&mut self, what: &str) -> Result<&'a [u8], String> {
        let word = self.rest.get(self.next).copied();
        self.next += 1;
        word.ok_or_else(|| format!("`{}` lacks its word {what}", shown(self.call)))
    }

    fn u64(&mut self, what: &str) -> Result<u64, String> {
        let word = self.word(what)?;
        number(word).ok_or_else(|| format!("{what} `{}` is no number of 64 bits", shown(word)))
    }

    fn u32(&mut self, what: &str) -> Result<u32, String> {
        let word = self.word(what)?;
        number(word)
            .and_then(|n| u32::try_from(n).ok())
            .ok_or_else(|| format!("{what} `{}` is no number of 32 bits", shown(word)))
    }

    fn length(&mut self) -> Result<usize, String> {
        let length = self.u64("LENGTH")?;
        if length > LONGEST_BUFFER {
            return Err(format!("LENGTH `{length}` is above {LONGEST_BUFFER}"));
        }
        usize::try_from(length).map_err(|_| format!("LENGTH `{length}` is too long"))
    }

    fn bit(&mut self) -> Result<bool, String> {
        match self.word("0|1")? {
            b"0" => Ok(false),
            b"1" => Ok(true),
            other => Err(format!("`{}` is neither 0 nor 1", shown(other))),
        }
    }

    fn bytes(&mut self) -> Result<Vec<u8>, String> {
        let word = self.word("BYTES")?;
        if word == b"-" {
            return Ok(Vec::new());
        }
        if word.len() % 2 != 0 {
            return Err(format!("BYTES `{}` has an odd number of digits", shown(word)));
        }
        let byte = |pair: &[u8]| Some(digit(pair[0], 16)? * 16 + digit(pair[1], 16)?);
        let bytes: Option<Vec<u8>> = word.chunks(2).map(|pair| byte(pair).and_then(|b| u8::try_from(b).ok())).collect();
        bytes.ok_or_else(|| format!("BYTES `{}` has a character that is no hexadecimal digit", shown(word)))
    }

    fn sixteen(&mut self, what: &str) -> Result<[u32; 16], String> {
        let mut numbers = [0; 16];
        for number in &mut numbers {
            *number = self.u32(what)?;
        }
        Ok(numbers)
    }

    /// A frame for every two words that are left.
    fn frames(&mut self) -> Result<Vec<Frame>, String> {
        let mut frames = Vec::new();
        while self.next < self.rest.len() {
            frames.push(Frame { start: self.u64("START")?, end: self.u64("END")? });
        }
        Ok(frames)
    }
}

/// A word as a message shows it: printable, and not longer than a line of text.
fn shown(word: &[u8]) -> String {
    const LONGEST: usize = 40;
    let head: String = word.iter().take(LONGEST).flat_map(|&b| std::ascii::escape_default(b)).map(char::from).collect();
    if word.len() > LONGEST { format!("{head}..") } else { head }
}

fn digit(character: u8, base: u32) -> Option<u64> {
    char::from(character).to_digit(base).map(u64::from)
}

/// A decimal number, or a hexadecimal one after `0x`, of at most 64 bits.
fn number(word: &[u8]) -> Option<u64> {
    let (digits, base) = match word.strip_prefix(b"0x") {
        Some(digits) => (digits, 16),
        None => (word, 10),
    };
    if digits.is_empty() {
        return None;
    }
    digits
        .iter()
        .try_fold(0u64, |sum, &character| sum.checked_mul(u64::from(base))?.checked_add(digit(character, base)?))
}

/// The call of a line; `None` for a line that is passed over. The error names the word at fault.
pub fn parse(line: &[u8]) -> Result<Option<Call>, String> {
    if line.len() > LONGEST_LINE {
        return Err(too_long());
    }
    if line.first() == Some(&b'#') {
        return Ok(None);
    }
    let mut all = line.split(|&b| b == b' ').filter(|word| !word.is_empty());
    let Some(call) = all.next() else {
        return Ok(None);
    };
    let mut words = Words { call, rest: all.collect(), next: 0 };
    let call = named(&mut words)?;
    match words.rest.get(words.next) {
        Some(extra) => Err(format!("`{}` has the extra word `{}`", shown(words.call), shown(extra))),
        None => Ok(Some(call)),
    }
}

/// What a line of more than [`LONGEST_LINE`] bytes answers.
#[must_use]
pub fn too_long() -> String {
    format!("the line is longer than {LONGEST_LINE} bytes")
}

fn named(words: &mut Words<'_>) -> Result<Call, String> {
    Ok(match words.call {
        b"setup" => {
            Call::Setup(Box::new(Setup { offsets: words.sixteen("OFFSET")?, reset_words: words.sixteen("RESET")? }))
        }
        b"read" => Call::Read { now: words.u64("NOW")?, offset: words.u32("OFFSET")? },
        b"write" => Call::Write { now: words.u64("NOW")?, offset: words.u32("OFFSET")?, value: words.u32("VALUE")? },
        b"write_row" => Call::WriteRow { now: words.u64("NOW")?, bytes: words.bytes()? },
        b"receive" => Call::Receive { now: words.u64("NOW")?, at: words.u64("AT")?, bytes: words.bytes()? },
        b"wake" => Call::Wake { now: words.u64("NOW")? },
        b"watch" => Call::Watch { now: words.u64("NOW")?, watched: words.bit()? },
        b"reset" => Call::Reset { now: words.u64("NOW")? },
        b"power_down" => Call::PowerDown { now: words.u64("NOW")? },
        b"clock" => Call::Clock { now: words.u64("NOW")?, period: words.u64("PERIOD")? },
        b"take_tx" => Call::TakeTx { now: words.u64("NOW")?, length: words.length()? },
        b"take_written" => Call::TakeWritten { length: words.length()? },
        b"has_left" => Call::HasLeft,
        b"host_pending" => Call::HostPending,
        b"figures" => Call::Figures { frames: words.frames()? },
        other => return Err(format!("`{}` is no call", shown(other))),
    })
}
