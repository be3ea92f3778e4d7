//! Demand 3 by trial: a trace with other bytes, and its answers without theirs.
use programs::answers_of::Answered;
use programs::usage;
use std::io::{self, Write};
use std::{fs, process};
use uart_box::calls::{self, Call};

const USAGE: &str = "\
usage: other-bytes TRACE           the trace with every host byte, every word written to FIFO and every row's byte replaced
       other-bytes TRACE ANSWERS   the answers with every byte masked: a FIFO read's value, what was handed out
FIFO is the first offset of the last `setup` that was taken. Lines that are no call are left as they are.
";

fn read(path: &str) -> Vec<u8> {
    fs::read(path).unwrap_or_else(|error| usage::fail("other-bytes", &format!("{path}: {error}")))
}

/// The offset of FIFO, as the lines of a trace set it up: a `setup` with two equal offsets is refused.
#[derive(Default)]
struct Fifo(Option<u32>);

impl Fifo {
    fn walk(&mut self, call: &Call) {
        if let Call::Setup(setup) = call {
            let mut offsets = setup.offsets;
            offsets.sort_unstable();
            if offsets.windows(2).all(|pair| pair[0] != pair[1]) {
                self.0 = Some(setup.offsets[0]);
            }
        }
    }
}

/// Another byte for each byte, which changes from byte to byte.
struct Others(u32);

impl Others {
    fn of(&mut self, byte: u8) -> u8 {
        self.0 = self.0.wrapping_mul(1_664_525).wrapping_add(1_013_904_223);
        let other = self.0.to_be_bytes()[0];
        if other == byte { !other } else { other }
    }
}

fn replaced(trace: &[u8], out: &mut impl Write) -> io::Result<()> {
    let (mut fifo, mut others) = (Fifo::default(), Others(1));
    for line in trace.strip_suffix(b"\n").unwrap_or(trace).split(|&b| b == b'\n') {
        match calls::parse(line) {
            Ok(Some(Call::Receive { now, at, bytes })) => {
                let bytes = bytes.into_iter().map(|byte| others.of(byte)).collect();
                writeln!(out, "{}", Call::Receive { now, at, bytes }.line())?;
            }
            Ok(Some(Call::WriteRow { now, bytes })) => {
                let bytes = bytes.into_iter().map(|byte| others.of(byte)).collect();
                writeln!(out, "{}", Call::WriteRow { now, bytes }.line())?;
            }
            Ok(Some(Call::Write { now, offset, value })) if fifo.0 == Some(offset) => {
                let value = u32::from_be_bytes(value.to_be_bytes().map(|byte| others.of(byte)));
                writeln!(out, "{}", Call::Write { now, offset, value }.line())?;
            }
            Ok(call) => {
                if let Some(call) = &call {
                    fifo.walk(call);
                }
                out.write_all(line)?;
                out.write_all(b"\n")?;
            }
            Err(_) => {
                out.write_all(line)?;
                out.write_all(b"\n")?;
            }
        }
    }
    Ok(())
}

/// `name=` and hexadecimal digits after it: each digit becomes `x`.
fn mask(answer: &str, name: &str) -> String {
    let Some(start) = answer.find(name).map(|at| at + name.len()) else {
        return answer.to_owned();
    };
    let end = answer[start..].find(' ').map_or(answer.len(), |at| start + at);
    let masked: String = answer[start..end].chars().map(|c| if c.is_ascii_hexdigit() { 'x' } else { c }).collect();
    format!("{}{masked}{}", &answer[..start], &answer[end..])
}

fn masked(trace: &[u8], answers: &[u8], out: &mut impl Write) -> io::Result<()> {
    let lines: Vec<&[u8]> = trace.split(|&b| b == b'\n').collect();
    let (mut fifo, mut walk) = (Fifo::default(), Answered::new(trace));
    for answer in String::from_utf8_lossy(answers).lines() {
        let Some(line) = walk.next_call() else {
            eprintln!("other-bytes: there are more answers than calls");
            process::exit(1);
        };
        let call = calls::parse(lines[line]).ok().flatten();
        let shown = match &call {
            Some(Call::Read { offset, .. }) if fifo.0 == Some(*offset) && !answer.contains("UartEmptyRead") => {
                mask(answer, " value=")
            }
            Some(Call::TakeTx { .. } | Call::TakeWritten { .. }) => mask(answer, " bytes="),
            _ => answer.to_owned(),
        };
        if let Some(call) = &call {
            fifo.walk(call);
        }
        writeln!(out, "{shown}")?;
    }
    if walk.next_call().is_some() {
        eprintln!("other-bytes: there are fewer answers than calls");
        process::exit(1);
    }
    Ok(())
}

fn main() {
    let words = usage::words(USAGE);
    let mut out = io::BufWriter::new(io::stdout().lock());
    let done = match words.iter().map(String::as_str).collect::<Vec<_>>()[..] {
        [trace] => replaced(&read(trace), &mut out),
        [trace, answers] => masked(&read(trace), &read(answers), &mut out),
        _ => usage::bad("other-bytes", "TRACE is expected, and perhaps ANSWERS", USAGE),
    };
    if let Err(error) = done.and_then(|()| out.flush()) {
        usage::fail("other-bytes", &error.to_string());
    }
}
