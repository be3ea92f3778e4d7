//! A trace beside its answers: which lines are answered, and where the UART of a call was set up.
use uart_box::calls;

/// A trace's lines, walked call by call.
pub struct Answered<'a> {
    lines: Vec<&'a [u8]>,
    next: usize,
    /// The line of the `setup` that made the UART in place.
    setup: usize,
    /// The line of the call that was walked last.
    walked: usize,
}

impl<'a> Answered<'a> {
    #[must_use]
    pub fn new(trace: &'a [u8]) -> Answered<'a> {
        let whole = trace.strip_suffix(b"\n").unwrap_or(trace);
        let lines = if trace.is_empty() { Vec::new() } else { whole.split(|&b| b == b'\n').collect() };
        Answered { lines, next: 0, setup: 0, walked: 0 }
    }

    /// The index of the next line that is answered.
    pub fn next_call(&mut self) -> Option<usize> {
        while let Some(line) = self.lines.get(self.next) {
            self.next += 1;
            if !matches!(calls::parse(line), Ok(None)) {
                self.walked = self.next - 1;
                return Some(self.walked);
            }
        }
        None
    }

    /// The answer of the call that was walked last: a `setup` that is taken starts a new UART.
    pub fn note(&mut self, answer: Option<&[u8]>) {
        if answer == Some(b"0") && self.lines[self.walked].trim_ascii_start().starts_with(b"setup") {
            self.setup = self.walked;
        }
    }

    /// The lines from the last `setup` that was taken to `line`.
    #[must_use]
    pub fn since_setup(&self, line: usize) -> &[&'a [u8]] {
        &self.lines[self.setup..=line]
    }
}

/// Whether two answers are the same; what stands after `error: ` is free.
#[must_use]
pub fn same(one: Option<&[u8]>, other: Option<&[u8]>) -> bool {
    let is_error = |answer: Option<&[u8]>| answer.is_some_and(|line| line.starts_with(b"error: "));
    one == other || (is_error(one) && is_error(other))
}
