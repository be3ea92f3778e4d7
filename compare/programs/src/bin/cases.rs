//! A trace as cases for the checker: each call beside the answer of the published Rust, or each list of frames beside
//! that of the box, as a claim that computes.
use programs::usage;
use std::io::{self, BufRead, Write};
use uart_box::answers;
use uart_box::calls::{self, Call};
use uart_box::session::Session;

const USAGE: &str = "\
usage: cases [--figures] < TRACE > CASES
For each UART that the trace (docs/REPLAY.md) sets up: its calls with the answers of the published Rust, and the claim
that the definition answers so. Lines that are no calls, lists of frames and refused set-ups are left out; a UART's calls
end before the row that brings its rows above 250 writes. On standard error: how many calls there are, and how many of
them are rows. With --figures: for each list of frames the claim that the definition answers it as the box does, and
nothing else. On standard error: how many lists there are, and how many of them are refused. compare/holds-definition
runs it.
";

/// The writes that the rows of one UART make at most: the checker needs much memory for them.
const MOST_IN_ROWS: u64 = 250;
const HEAD: &str = include_str!("../../../definition/cases.txt");
const UNFOLDED: &str = include_str!("../../../definition/unfolded.txt");
const FIGURES_HEAD: &str = include_str!("../../../definition/figures-cases.txt");
const FIGURES_UNFOLDED: &str = include_str!("../../../definition/figures-unfolded.txt");
/// The names of diag.rs's UartFeature in the order of the definition's numbers, from 30 on.
const FEATURES: [&str; 11] = [
    "Loopback",
    "InvertedRx",
    "Autobaud",
    "NoStopBit",
    "FifoSize",
    "Rs485",
    "TxFlowControl",
    "RxFlowControl",
    "InvertedTx",
    "Irda",
    "TxBreak",
];

/// The calls on one UART, each with its answer's numbers.
struct Part {
    set_up: String,
    cases: Vec<String>,
    /// The rows among them, and the writes that rows make.
    rows: usize,
    in_rows: u64,
}

impl Part {
    fn add(&mut self, call: &Call, line: &str) {
        let is_row = matches!(call, Call::WriteRow { .. });
        if is_row {
            self.in_rows += field(line, "made=").parse().unwrap_or(0);
        }
        let Some(asked) = asked(call) else { return };
        if self.in_rows <= MOST_IN_ROWS {
            self.cases.push(format!("as_case ({asked}) {}", list(numbers(call, line).iter())));
            self.rows += usize::from(is_row);
        }
    }
}

fn list<T: ToString>(items: impl Iterator<Item = T>) -> String {
    let mut text = String::from("(");
    for item in items {
        text.push_str(&item.to_string());
        text.push_str(" ∷ ");
    }
    text.push_str("[])");
    text
}

/// What is asked, as the definition writes it: a call, or a row.
fn asked(call: &Call) -> Option<String> {
    match call {
        Call::WriteRow { now, bytes } => Some(format!("Asked.row {now} {}", list(bytes.iter()))),
        _ => request(call).map(|request| format!("Asked.call ({request})")),
    }
}

/// A call as the definition writes it. A lent buffer holds the byte 165.
fn request(call: &Call) -> Option<String> {
    Some(match call {
        Call::Setup(_) | Call::WriteRow { .. } | Call::Figures { .. } => return None,
        Call::Read { now, offset } => format!("Call.at {now} (Dated.read {offset})"),
        Call::Write { now, offset, value } => {
            format!("Call.at {now} (Dated.write (record {{ offset = {offset}; value = {value} }}))")
        }
        Call::Receive { now, at, bytes } => format!("Call.at {now} (Dated.receive {at} {})", list(bytes.iter())),
        Call::Wake { now } => format!("Call.at {now} (Dated.machine Machine.wake)"),
        Call::Watch { now, watched } => format!("Call.at {now} (Dated.machine (Machine.watch {watched}))"),
        Call::Reset { now } => format!("Call.at {now} (Dated.machine Machine.reset)"),
        Call::PowerDown { now } => format!("Call.at {now} (Dated.machine Machine.power_down)"),
        Call::Clock { now, period } => format!("Call.at {now} (Dated.machine (Machine.clock_change {period}))"),
        Call::TakeTx { now, length } => format!("Call.at {now} (Dated.take_tx (replicate {length} 165))"),
        Call::TakeWritten { length } => format!("Call.undated (Undated.take_written (replicate {length} 165))"),
        Call::HasLeft => "Call.undated Undated.has_left".to_owned(),
        Call::HostPending => "Call.undated Undated.host_pending".to_owned(),
    })
}

fn notice(name: &str) -> u64 {
    let (kind, rest) = name.split_once('(').unwrap_or((name, ""));
    let inside = rest.trim_end_matches(')');
    match kind {
        "UartOverflow" => 1,
        "UartEmptyRead" => 2,
        "UartClock" => 10 + inside.parse::<u64>().unwrap_or(9),
        "UartReceiveClock" => 20 + inside.parse::<u64>().unwrap_or(9),
        _ => FEATURES.iter().position(|&feature| feature == inside).map_or(99, |at| 30 + at as u64),
    }
}

fn bytes_of(hex: &str) -> Vec<u64> {
    (0..hex.len() / 2).filter_map(|at| u64::from_str_radix(&hex[2 * at..2 * at + 2], 16).ok()).collect()
}

fn number(text: &str) -> u64 {
    text.parse().unwrap_or(u64::MAX)
}

/// 0 for none, and else one more than the number.
fn or_none(text: &str) -> u64 {
    if text == "-" { 0 } else { number(text) + 1 }
}

/// What stands after `name` in an answer's line.
fn field<'a>(line: &'a str, name: &str) -> &'a str {
    line.split(' ').find_map(|word| word.strip_prefix(name)).unwrap_or("")
}

/// The notices of an answer's line, each with its count where it is a row's.
fn notices(line: &str) -> Vec<(u64, u64)> {
    let named = field(line, "notices=").split(',').filter(|&name| name != "-");
    named.map(|name| name.split_once('*').unwrap_or((name, "1"))).map(|(name, n)| (notice(name), number(n))).collect()
}

/// The numbers of a call's own result. A row has the counts of two notices, 0 where there is none.
fn result(call: &Call, line: &str) -> Vec<u64> {
    let field = |name| field(line, name);
    match call {
        Call::Read { .. } => match field("value=").strip_prefix("0x") {
            Some(hex) => vec![1, u64::from_str_radix(hex, 16).unwrap_or(u64::MAX)],
            None => vec![2],
        },
        Call::Write { .. } => vec![3, number(field("accepted="))],
        Call::WriteRow { .. } => {
            let mut counts: Vec<u64> = notices(line).into_iter().map(|(_, count)| count).collect();
            counts.resize(counts.len().max(2), 0);
            [vec![8, number(field("made="))], counts].concat()
        }
        Call::TakeTx { length, .. } | Call::TakeWritten { length } => {
            let bytes = bytes_of(field("bytes="));
            let count = bytes.len() as u64;
            let rest = if field("rest=") == "kept" { *length as u64 - count } else { u64::MAX };
            [vec![5, count], bytes, vec![rest]].concat()
        }
        Call::HasLeft => vec![6, number(field("has_left="))],
        Call::HostPending => vec![7, number(field("host_pending="))],
        _ => vec![4],
    }
}

/// The numbers of what a dated call answers beside its own result.
fn report(line: &str) -> Vec<u64> {
    let wake = or_none(field(line, "wake="));
    let rest = ["overflows=", "passes="].map(|name| number(field(line, name)));
    let notices: Vec<u64> = notices(line).into_iter().map(|(notice, _)| notice).collect();
    [vec![number(field(line, "level=")), wake, rest[0], rest[1], notices.len() as u64], notices].concat()
}

/// The numbers of an answer's line, in the order of compare/definition/numbers.txt.
fn numbers(call: &Call, line: &str) -> Vec<u64> {
    let first = line.split(' ').next().unwrap_or("");
    if first != "0" {
        return vec![number(first)];
    }
    let report = match call {
        Call::TakeWritten { .. } => vec![0; 5], // the fixed report of an undated call
        _ if call.now().is_some() => report(line),
        _ => Vec::new(),
    };
    [vec![0], result(call, line), report].concat()
}

/// The numbers of a list's figures, in the order of compare/definition/figures-numbers.txt.
fn figures(line: &str) -> Vec<u64> {
    if !line.starts_with("0 ") {
        return vec![number(line)];
    }
    let of = |name| number(field(line, name));
    let times = ["busy=", "shortest=", "longest=", "quiet="].map(of);
    [&[0], &times[..], &[or_none(field(line, "at=")), of("mean="), of("remainder=")]].concat()
}

/// The calls of a trace, each with its answer's line.
fn answered(input: impl BufRead) -> io::Result<Vec<(Call, String)>> {
    let mut session = Session::default();
    let mut answered = Vec::new();
    for line in input.split(b'\n') {
        let Ok(Some(call)) = calls::parse(&line?) else { continue };
        let Some(answer) = session.call(&call) else { continue };
        let mut text = Vec::new();
        answers::put(&mut text, &answer);
        answered.push((call, String::from_utf8_lossy(&text).trim_end().to_owned()));
    }
    Ok(answered)
}

fn parts(answered: &[(Call, String)]) -> Vec<Part> {
    let mut parts: Vec<Part> = Vec::new();
    for (call, text) in answered {
        if let Call::Setup(setup) = call {
            if text == "0" {
                let set_up = format!("(new {} {})", list(setup.offsets.iter()), list(setup.reset_words.iter()));
                parts.push(Part { set_up, cases: Vec::new(), rows: 0, in_rows: 0 });
            }
        } else if let Some(part) = parts.last_mut() {
            part.add(call, text);
        }
    }
    parts.retain(|part| !part.cases.is_empty());
    parts
}

fn put_calls(out: &mut impl Write, answered: &[(Call, String)]) -> io::Result<()> {
    let parts = parts(answered);
    write!(out, "{HEAD}")?;
    for (at, part) in parts.iter().enumerate() {
        let (cases, count) = (part.cases.join("\n    ∷ "), part.cases.len());
        writeln!(out, "\ncalls{at} : List Case\ncalls{at} =\n    {cases}\n    ∷ []")?;
        writeln!(out, "\nequal{at} : answered calls{at} {} ≡ {count}", part.set_up)?;
        writeln!(out, "unfolding calls{at} {}", UNFOLDED.trim_end())?;
        writeln!(out, "equal{at} = refl")?;
    }
    let total: usize = parts.iter().map(|part| part.cases.len()).sum();
    eprintln!("{total} {}", parts.iter().map(|part| part.rows).sum::<usize>());
    Ok(())
}

fn put_lists(out: &mut impl Write, answered: &[(Call, String)]) -> io::Result<()> {
    let (mut lists, mut refused) = (0, 0);
    write!(out, "{FIGURES_HEAD}")?;
    for (call, text) in answered {
        let Call::Figures { frames } = call else { continue };
        let starts = list(frames.iter().map(|frame| frame.start));
        let ends = list(frames.iter().map(|frame| frame.end));
        let wanted = figures(text);
        writeln!(out, "\nequal{lists} : figures_numbers (figures_of {starts} {ends}) ≡ {}", list(wanted.iter()))?;
        writeln!(out, "unfolding {}", FIGURES_UNFOLDED.trim_end())?;
        writeln!(out, "equal{lists} = refl")?;
        lists += 1;
        refused += usize::from(wanted[0] != 0);
    }
    eprintln!("{lists} {refused}");
    Ok(())
}

fn run(of_figures: bool) -> io::Result<()> {
    let answered = answered(io::stdin().lock())?;
    let mut out = io::stdout().lock();
    if of_figures {
        put_lists(&mut out, &answered)?;
    } else {
        put_calls(&mut out, &answered)?;
    }
    out.flush()
}

fn main() {
    let words = usage::words(USAGE);
    let of_figures = match words.iter().map(String::as_str).collect::<Vec<_>>()[..] {
        [] => false,
        ["--figures"] => true,
        _ => usage::bad("cases", &format!("no such words: {}", words.join(" ")), USAGE),
    };
    if let Err(error) = run(of_figures) {
        usage::fail("cases", &error.to_string());
    }
}
