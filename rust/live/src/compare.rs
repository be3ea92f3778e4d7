//! Both sides call by call, and the shortest part of the calls that shows a difference: from the set-up to it.
use crate::Side;
use uart_box::calls::{self, Call};

/// Both sides, and the calls since the last set-up that was taken.
pub struct Comparison<P, R> {
    port: P,
    published: R,
    since: Vec<Call>,
    pub calls: u64,
    ours: Vec<u8>,
    theirs: Vec<u8>,
}

/// Two answers to one call that are not the same: the calls from the set-up to it, a line each, and both answers.
#[derive(Debug, PartialEq, Eq)]
pub struct Difference {
    pub trace: Vec<String>,
    pub port: String,
    pub published: String,
}

impl<P: Side, R: Side> Comparison<P, R> {
    pub fn new(port: P, published: R) -> Comparison<P, R> {
        Comparison { port, published, since: Vec::new(), calls: 0, ours: Vec::new(), theirs: Vec::new() }
    }

    /// Every line of `text` that is a call, in order, up to the first difference.
    pub fn lines(&mut self, text: &[u8]) -> Result<(), Difference> {
        for line in text.split(|&byte| byte == b'\n') {
            if let Ok(Some(call)) = calls::parse(line) {
                self.call(call)?;
            }
        }
        Ok(())
    }

    pub fn call(&mut self, call: Call) -> Result<(), Difference> {
        self.calls += 1;
        self.ours.clear();
        self.theirs.clear();
        self.port.call(&call, &mut self.ours);
        self.published.call(&call, &mut self.theirs);
        // A set-up that is taken starts anew; a refused one leaves the UART before in place, and stays in the trace.
        if matches!(call, Call::Setup(_)) && self.theirs == b"0\n" {
            self.since.clear();
        }
        self.since.push(call);
        if self.ours == self.theirs { Ok(()) } else { Err(self.difference()) }
    }

    fn difference(&self) -> Difference {
        let text = |answer: &[u8]| String::from_utf8_lossy(answer).trim_end().to_owned();
        Difference {
            trace: self.since.iter().map(Call::line).collect(),
            port: text(&self.ours),
            published: text(&self.theirs),
        }
    }
}
