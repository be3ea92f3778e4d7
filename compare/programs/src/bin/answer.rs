//! Answers a trace as the published Rust and document 01's box do: calls in, answers out.
use programs::usage;
use std::io::{self, Read, Write};
use uart_box::answers;
use uart_box::calls::{LONGEST_LINE, too_long};
use uart_box::session::Session;

const USAGE: &str = "\
usage: answer < TRACE > ANSWERS
Answers each call of a trace (docs/REPLAY.md) with the published Rust under document 01's box.
The whole lines of a read are answered and flushed before the next read.
";

/// The bytes of a line that has not ended yet. A line too long to be a call is not kept.
#[derive(Default)]
struct Unfinished {
    bytes: Vec<u8>,
    too_long: bool,
}

impl Unfinished {
    fn add(&mut self, bytes: &[u8]) {
        if self.too_long || self.bytes.len() + bytes.len() > LONGEST_LINE {
            self.too_long = true;
            self.bytes.clear();
        } else {
            self.bytes.extend_from_slice(bytes);
        }
    }

    fn is_empty(&self) -> bool {
        self.bytes.is_empty() && !self.too_long
    }

    /// The line ends here: it is answered, and the next one begins.
    fn end(&mut self, session: &mut Session, out: &mut Vec<u8>) {
        if self.too_long {
            answers::put_error(out, &too_long());
        } else {
            session.line(&self.bytes, out);
        }
        self.bytes.clear();
        self.too_long = false;
    }
}

fn run() -> io::Result<()> {
    let (mut input, mut output) = (io::stdin().lock(), io::stdout().lock());
    let mut session = Session::default();
    let mut unfinished = Unfinished::default();
    let mut chunk = vec![0; 1 << 16];
    let mut out = Vec::new();
    loop {
        let count = match input.read(&mut chunk) {
            Err(error) if error.kind() == io::ErrorKind::Interrupted => continue,
            other => other?,
        };
        if count == 0 {
            break;
        }
        let mut rest = &chunk[..count];
        while let Some(end) = rest.iter().position(|&b| b == b'\n') {
            unfinished.add(&rest[..end]);
            unfinished.end(&mut session, &mut out);
            rest = &rest[end + 1..];
        }
        unfinished.add(rest);
        output.write_all(&out)?;
        output.flush()?;
        out.clear();
    }
    if !unfinished.is_empty() {
        unfinished.end(&mut session, &mut out);
        output.write_all(&out)?;
        output.flush()?;
    }
    Ok(())
}

fn main() {
    if let Some(word) = usage::words(USAGE).first() {
        usage::bad("answer", &format!("`{word}` is not expected"), USAGE);
    }
    if let Err(error) = run() {
        usage::fail("answer", &error.to_string());
    }
}
