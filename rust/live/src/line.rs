//! The port's answers as lines of the replay format. `uart_box::answers` writes the published Rust's in the same form.
use std::fmt;
use std::io::Write;
use wondraxu::{Figures, Notice, Refusal, Report, Row};

fn put(out: &mut Vec<u8>, text: fmt::Arguments<'_>) {
    // Writing to a `Vec` does not fail.
    let _ = out.write_fmt(text);
}

pub fn refused(out: &mut Vec<u8>, refusal: Refusal) {
    put(out, format_args!("{}\n", refusal.number()));
}

pub fn no_uart(out: &mut Vec<u8>) {
    out.extend_from_slice(b"no UART\n");
}

pub fn value(out: &mut Vec<u8>, value: Option<u32>) {
    match value {
        Some(value) => put(out, format_args!("value=0x{value:08x}")),
        None => out.extend_from_slice(b"value=none"),
    }
}

pub fn accepted(out: &mut Vec<u8>, accepted: bool) {
    put(out, format_args!("accepted={}", u8::from(accepted)));
}

pub fn done(out: &mut Vec<u8>, (): ()) {
    out.extend_from_slice(b"done");
}

pub fn handed_out(out: &mut Vec<u8>, bytes: &[u8], rest_kept: bool) {
    out.extend_from_slice(b"bytes=");
    if bytes.is_empty() {
        out.push(b'-');
    }
    for byte in bytes {
        put(out, format_args!("{byte:02x}"));
    }
    out.extend_from_slice(if rest_kept { b" rest=kept" } else { b" rest=changed" });
}

pub fn taken(out: &mut Vec<u8>, bytes: &[u8], rest_kept: bool) {
    out.extend_from_slice(b"0 ");
    handed_out(out, bytes, rest_kept);
    out.push(b'\n');
}

pub fn has_left(out: &mut Vec<u8>, has_left: bool) {
    put(out, format_args!("0 has_left={}\n", u8::from(has_left)));
}

pub fn host_pending(out: &mut Vec<u8>, count: usize) {
    put(out, format_args!("0 host_pending={count}\n"));
}

pub fn figures(out: &mut Vec<u8>, figures: Figures) {
    let Figures { busy, shortest, longest, quiet, at, mean, remainder } = figures;
    put(out, format_args!("0 busy={busy} shortest={shortest} longest={longest} quiet={quiet} at="));
    match at {
        Some(place) => put(out, format_args!("{place}")),
        None => out.push(b'-'),
    }
    put(out, format_args!(" mean={mean} remainder={remainder}\n"));
}

/// What follows a dated call's own result.
pub fn report(out: &mut Vec<u8>, report: &Report) {
    stand(out, report.level(), report.wake());
    put(out, format_args!(" overflows={} notices=", report.overflows()));
    list(out, report.notices(), notice);
    put(out, format_args!(" passes={}\n", report.passes()));
}

/// A row's whole answer: each notice has its count.
pub fn row(out: &mut Vec<u8>, row: &Row) {
    put(out, format_args!("0 made={}", row.made()));
    stand(out, row.level(), row.wake());
    put(out, format_args!(" overflows={} notices=", row.overflows()));
    list(out, row.notices(), |out, (what, times)| {
        notice(out, what);
        put(out, format_args!("*{times}"));
    });
    put(out, format_args!(" passes={}\n", row.passes()));
}

fn stand(out: &mut Vec<u8>, level: bool, wake: Option<u64>) {
    put(out, format_args!(" level={} wake=", u8::from(level)));
    match wake {
        Some(cycle) => put(out, format_args!("{cycle}")),
        None => out.push(b'-'),
    }
}

fn list<T>(out: &mut Vec<u8>, items: impl Iterator<Item = T>, put_item: impl Fn(&mut Vec<u8>, T)) {
    let mut none = true;
    for item in items {
        if !none {
            out.push(b',');
        }
        none = false;
        put_item(out, item);
    }
    if none {
        out.push(b'-');
    }
}

fn notice(out: &mut Vec<u8>, notice: Notice) {
    match notice {
        Notice::UartOverflow => out.extend_from_slice(b"UartOverflow"),
        Notice::UartEmptyRead => out.extend_from_slice(b"UartEmptyRead"),
        Notice::UartClock(sel) => put(out, format_args!("UartClock({sel})")),
        Notice::UartReceiveClock(sel) => put(out, format_args!("UartReceiveClock({sel})")),
        Notice::UartFeature(feature) => put(out, format_args!("UartFeature({feature:?})")),
    }
}
