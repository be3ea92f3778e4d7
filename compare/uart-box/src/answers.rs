//! The answer lines of the replay format.
use crate::diag::Unsupported;
use crate::figures::Figures;
use crate::row::Row;
use crate::the_box::{Answer, Dated, HandedOut, Outcome};
use std::io::Write;

/// Puts an answer's line, with its line feed, at the end of `out`.
pub fn put(out: &mut Vec<u8>, answer: &Answer) {
    match answer {
        Answer::Refused(number) => put_number(out, u64::from(*number)),
        Answer::SetUp => out.push(b'0'),
        Answer::Dated(dated) => put_dated(out, dated),
        Answer::Row(row) => put_row(out, row),
        Answer::TakeWritten(handed_out) => {
            out.extend_from_slice(b"0 ");
            put_handed_out(out, handed_out);
        }
        Answer::HasLeft(has_left) => {
            out.extend_from_slice(b"0 has_left=");
            put_number(out, u64::from(*has_left));
        }
        Answer::HostPending(count) => {
            out.extend_from_slice(b"0 host_pending=");
            put_number(out, *count as u64);
        }
        Answer::Figures(figures) => put_figures(out, figures),
    }
    out.push(b'\n');
}

/// Puts the line of a line that is no call.
pub fn put_error(out: &mut Vec<u8>, reason: &str) {
    out.extend_from_slice(b"error: ");
    out.extend_from_slice(reason.as_bytes());
    out.push(b'\n');
}

fn put_dated(out: &mut Vec<u8>, dated: &Dated) {
    out.extend_from_slice(b"0 ");
    put_outcome(out, &dated.outcome);
    put_stand(out, dated.level, dated.wake);
    out.extend_from_slice(b" overflows=");
    put_number(out, dated.overflows);
    out.extend_from_slice(b" notices=");
    put_list(out, &dated.notices, put_notice);
    out.extend_from_slice(b" passes=");
    put_number(out, dated.passes);
}

fn put_row(out: &mut Vec<u8>, row: &Row) {
    out.extend_from_slice(b"0 made=");
    put_number(out, row.made);
    put_stand(out, row.level, row.wake);
    out.extend_from_slice(b" overflows=");
    put_number(out, row.overflows);
    out.extend_from_slice(b" notices=");
    put_list(out, &row.notices, |out, (notice, count)| {
        put_notice(out, notice);
        out.push(b'*');
        put_number(out, *count);
    });
    out.extend_from_slice(b" passes=");
    put_number(out, row.passes);
}

fn put_figures(out: &mut Vec<u8>, figures: &Figures) {
    let Figures { busy, shortest, longest, quiet, at, mean, remainder } = figures;
    let at = at.map_or("-".to_owned(), |place| place.to_string());
    // Writing to a `Vec` does not fail.
    let _ = write!(out, "0 busy={busy} shortest={shortest} longest={longest} quiet={quiet} at={at}");
    let _ = write!(out, " mean={mean} remainder={remainder}");
}

/// The level and the wake.
fn put_stand(out: &mut Vec<u8>, level: bool, wake: Option<u64>) {
    out.extend_from_slice(if level { b" level=1 wake=" } else { b" level=0 wake=" });
    match wake {
        Some(cycle) => put_number(out, cycle),
        None => out.push(b'-'),
    }
}

fn put_outcome(out: &mut Vec<u8>, outcome: &Outcome) {
    match outcome {
        Outcome::Value(Some(value)) => {
            out.extend_from_slice(b"value=0x");
            for byte in value.to_be_bytes() {
                put_hex(out, byte);
            }
        }
        Outcome::Value(None) => out.extend_from_slice(b"value=none"),
        Outcome::Accepted(accepted) => {
            out.extend_from_slice(b"accepted=");
            put_number(out, u64::from(*accepted));
        }
        Outcome::HandedOut(handed_out) => put_handed_out(out, handed_out),
        Outcome::Done => out.extend_from_slice(b"done"),
    }
}

fn put_handed_out(out: &mut Vec<u8>, handed_out: &HandedOut) {
    out.extend_from_slice(b"bytes=");
    if handed_out.bytes.is_empty() {
        out.push(b'-');
    }
    for &byte in &handed_out.bytes {
        put_hex(out, byte);
    }
    out.extend_from_slice(if handed_out.rest_kept { b" rest=kept" } else { b" rest=changed" });
}

/// `-` for none, or the items with a comma between.
fn put_list<T>(out: &mut Vec<u8>, items: &[T], put_item: impl Fn(&mut Vec<u8>, &T)) {
    if items.is_empty() {
        out.push(b'-');
    }
    for (i, item) in items.iter().enumerate() {
        if i > 0 {
            out.push(b',');
        }
        put_item(out, item);
    }
}

fn put_notice(out: &mut Vec<u8>, notice: &Unsupported) {
    // Writing to a `Vec` does not fail.
    let _ = match notice {
        Unsupported::UartOverflow { .. } => write!(out, "UartOverflow"),
        Unsupported::UartEmptyRead { .. } => write!(out, "UartEmptyRead"),
        Unsupported::UartClock { sclk_sel, .. } => write!(out, "UartClock({sclk_sel})"),
        Unsupported::UartReceiveClock { sclk_sel, .. } => write!(out, "UartReceiveClock({sclk_sel})"),
        Unsupported::UartFeature { feature, .. } => write!(out, "UartFeature({feature:?})"),
        other => write!(out, "{other:?}"),
    };
}

fn put_number(out: &mut Vec<u8>, number: u64) {
    let mut digits = [0u8; 20];
    let mut first = digits.len();
    let mut rest = number;
    loop {
        first -= 1;
        digits[first] = b'0' + (rest % 10) as u8;
        rest /= 10;
        if rest == 0 {
            break;
        }
    }
    out.extend_from_slice(&digits[first..]);
}

fn put_hex(out: &mut Vec<u8>, byte: u8) {
    const DIGITS: &[u8; 16] = b"0123456789abcdef";
    out.push(DIGITS[usize::from(byte >> 4)]);
    out.push(DIGITS[usize::from(byte & 15)]);
}
