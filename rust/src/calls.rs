//! The exported calls. This is the one file with `unsafe` in it.
//!
//! What nothing checks, of every call here:
//! - that the declarations below are those of the static library: no compiler reads both sides. `tests/declared.rs` compares
//!   their text with that of the proved crates, `tests/layout.rs` sizes and offsets with C's, `tests/fields.rs` looks at the
//!   value of each field.
//! - what a call requires of its state: the core is one that set-up (not refused) or a call gave, and the slots are those
//!   that the calls since then were lent, with nothing else written to them. `Uart` keeps that: its fields are private, and
//!   only set-up and these functions write them.
//! - that the pointers are to as many slots as the call reads: the types of the arrays say it.
//! - that the `bool`s in what comes back are 0 or 1: the library writes them so.
use crate::plain::{PlainAnswer, PlainCore, PlainFigures, PlainNew, PlainReply, PlainRowAnswer, Sixteen, Slots};
use crate::plain::{FLIGHT, HOST, LEFT, RECEIVED, RUNS};

type GoneAt = [u64; FLIGHT];
type Flight = [u8; FLIGHT];
type Left = [u8; LEFT];
type Host = [u8; HOST];
type Runs = [u64; RUNS];
type Received = [u8; RECEIVED];

#[rustfmt::skip]
extern "C" {
    fn wondraxu_new(offsets: Sixteen, resets: Sixteen) -> PlainNew;
    fn wondraxu_read(core: PlainCore, gone_at: &GoneAt, flight: &Flight, tx: &mut Left, host: &Host, run_at: &Runs, run_len: &mut Runs, rx: &mut Received, cycle: u64, offset: u32) -> PlainAnswer;
    fn wondraxu_write(core: PlainCore, gone_at: &mut GoneAt, flight: &mut Flight, tx: &mut Left, host: &Host, run_at: &Runs, run_len: &mut Runs, rx: &mut Received, cycle: u64, offset: u32, value: u32) -> PlainAnswer;
    fn wondraxu_write_row(core: PlainCore, gone_at: &mut GoneAt, flight: &mut Flight, tx: &mut Left, host: &Host, run_at: &Runs, run_len: &mut Runs, rx: &mut Received, cycle: u64, bytes: *const u8, count: usize) -> PlainRowAnswer;
    fn wondraxu_wake(core: PlainCore, gone_at: &GoneAt, flight: &Flight, tx: &mut Left, host: &Host, run_at: &Runs, run_len: &mut Runs, rx: &mut Received, cycle: u64) -> PlainAnswer;
    fn wondraxu_reset(core: PlainCore, gone_at: &GoneAt, flight: &Flight, tx: &mut Left, host: &Host, run_at: &Runs, run_len: &mut Runs, rx: &mut Received, cycle: u64) -> PlainAnswer;
    fn wondraxu_clock_change(core: PlainCore, gone_at: &GoneAt, flight: &Flight, tx: &mut Left, host: &Host, run_at: &Runs, run_len: &mut Runs, rx: &mut Received, cycle: u64, period: u64) -> PlainAnswer;
    fn wondraxu_receive(core: PlainCore, gone_at: &GoneAt, flight: &Flight, tx: &mut Left, host: &mut Host, run_at: &mut Runs, run_len: &mut Runs, rx: &mut Received, cycle: u64, at: u64, bytes: *const u8, count: usize) -> PlainAnswer;
    fn wondraxu_take_tx(core: PlainCore, gone_at: &GoneAt, flight: &Flight, tx: &mut Left, host: &Host, run_at: &Runs, run_len: &mut Runs, rx: &mut Received, cycle: u64, out: *mut u8, length: usize) -> PlainAnswer;
    fn wondraxu_take_written(core: PlainCore, gone_at: &GoneAt, flight: &Flight, tx: &Left, host: &Host, run_at: &Runs, run_len: &Runs, rx: &Received, out: *mut u8, length: usize) -> PlainAnswer;
    fn wondraxu_watch(core: PlainCore, gone_at: &GoneAt, flight: &Flight, tx: &Left, host: &Host, run_at: &Runs, run_len: &Runs, rx: &Received, cycle: u64, on: bool) -> PlainAnswer;
    fn wondraxu_power_down(core: PlainCore, gone_at: &GoneAt, flight: &Flight, tx: &Left, host: &Host, run_at: &Runs, run_len: &Runs, rx: &Received, cycle: u64) -> PlainAnswer;
    fn wondraxu_has_left(core: PlainCore) -> PlainReply;
    fn wondraxu_host_pending(core: PlainCore) -> PlainReply;
    fn wondraxu_figures(starts: *const u64, starts_count: usize, ends: *const u64, ends_count: usize) -> PlainFigures;
    fn wondraxu_abi_4() -> u32;
}

/// A program needs the library of the version that these declarations are of, or does not link: the structs of another one
/// may have other places. The number goes up with every change of a struct or a call that crosses (`c/versions`).
#[used]
static VERSION: unsafe extern "C" fn() -> u32 = wondraxu_abi_4;

/// Nothing is required: a repeated offset is refused.
#[inline]
pub(crate) fn new(offsets: [u32; 16], resets: [u32; 16]) -> PlainNew {
    // SAFETY: structs by value alone.
    unsafe { wondraxu_new(Sixteen { words: offsets }, Sixteen { words: resets }) }
}

#[inline]
pub(crate) fn read(core: &PlainCore, s: &mut Slots, cycle: u64, offset: u32) -> PlainAnswer {
    // SAFETY: the state is `Uart`'s own; each array is lent once.
    unsafe {
        wondraxu_read(
            *core,
            &s.gone_at,
            &s.flight,
            &mut s.tx,
            &s.host,
            &s.run_at,
            &mut s.run_len,
            &mut s.rx,
            cycle,
            offset,
        )
    }
}

#[inline]
pub(crate) fn write(core: &PlainCore, s: &mut Slots, cycle: u64, offset: u32, value: u32) -> PlainAnswer {
    // SAFETY: the state is `Uart`'s own; each array is lent once.
    unsafe {
        wondraxu_write(
            *core,
            &mut s.gone_at,
            &mut s.flight,
            &mut s.tx,
            &s.host,
            &s.run_at,
            &mut s.run_len,
            &mut s.rx,
            cycle,
            offset,
            value,
        )
    }
}

#[inline]
pub(crate) fn write_row(core: &PlainCore, s: &mut Slots, cycle: u64, bytes: &[u8]) -> PlainRowAnswer {
    // SAFETY: the state is `Uart`'s own; each array is lent once; pointer and count are one slice's, which is only read.
    unsafe {
        wondraxu_write_row(
            *core,
            &mut s.gone_at,
            &mut s.flight,
            &mut s.tx,
            &s.host,
            &s.run_at,
            &mut s.run_len,
            &mut s.rx,
            cycle,
            bytes.as_ptr(),
            bytes.len(),
        )
    }
}

#[inline]
pub(crate) fn wake(core: &PlainCore, s: &mut Slots, cycle: u64) -> PlainAnswer {
    // SAFETY: the state is `Uart`'s own; each array is lent once.
    unsafe {
        wondraxu_wake(*core, &s.gone_at, &s.flight, &mut s.tx, &s.host, &s.run_at, &mut s.run_len, &mut s.rx, cycle)
    }
}

#[inline]
pub(crate) fn reset(core: &PlainCore, s: &mut Slots, cycle: u64) -> PlainAnswer {
    // SAFETY: the state is `Uart`'s own; each array is lent once.
    unsafe {
        wondraxu_reset(*core, &s.gone_at, &s.flight, &mut s.tx, &s.host, &s.run_at, &mut s.run_len, &mut s.rx, cycle)
    }
}

#[inline]
pub(crate) fn clock_change(core: &PlainCore, s: &mut Slots, cycle: u64, period: u64) -> PlainAnswer {
    // SAFETY: the state is `Uart`'s own; each array is lent once.
    unsafe {
        wondraxu_clock_change(
            *core,
            &s.gone_at,
            &s.flight,
            &mut s.tx,
            &s.host,
            &s.run_at,
            &mut s.run_len,
            &mut s.rx,
            cycle,
            period,
        )
    }
}

#[inline]
pub(crate) fn receive(core: &PlainCore, s: &mut Slots, cycle: u64, at: u64, bytes: &[u8]) -> PlainAnswer {
    // SAFETY: the state is `Uart`'s own; each array is lent once; pointer and count are one slice's, which is only read.
    unsafe {
        wondraxu_receive(
            *core,
            &s.gone_at,
            &s.flight,
            &mut s.tx,
            &mut s.host,
            &mut s.run_at,
            &mut s.run_len,
            &mut s.rx,
            cycle,
            at,
            bytes.as_ptr(),
            bytes.len(),
        )
    }
}

#[inline]
pub(crate) fn take_tx(core: &PlainCore, s: &mut Slots, cycle: u64, out: &mut [u8]) -> PlainAnswer {
    // SAFETY: the state is `Uart`'s own; each array is lent once; pointer and length are one slice's, lent for the call.
    unsafe {
        wondraxu_take_tx(
            *core,
            &s.gone_at,
            &s.flight,
            &mut s.tx,
            &s.host,
            &s.run_at,
            &mut s.run_len,
            &mut s.rx,
            cycle,
            out.as_mut_ptr(),
            out.len(),
        )
    }
}

#[inline]
pub(crate) fn take_written(core: &PlainCore, s: &Slots, out: &mut [u8]) -> PlainAnswer {
    // SAFETY: the state is `Uart`'s own; pointer and length are one slice's, lent for the call.
    unsafe {
        wondraxu_take_written(
            *core,
            &s.gone_at,
            &s.flight,
            &s.tx,
            &s.host,
            &s.run_at,
            &s.run_len,
            &s.rx,
            out.as_mut_ptr(),
            out.len(),
        )
    }
}

#[inline]
pub(crate) fn watch(core: &PlainCore, s: &Slots, cycle: u64, on: bool) -> PlainAnswer {
    // SAFETY: the state is `Uart`'s own, and is only read.
    unsafe { wondraxu_watch(*core, &s.gone_at, &s.flight, &s.tx, &s.host, &s.run_at, &s.run_len, &s.rx, cycle, on) }
}

#[inline]
pub(crate) fn power_down(core: &PlainCore, s: &Slots, cycle: u64) -> PlainAnswer {
    // SAFETY: the state is `Uart`'s own, and is only read.
    unsafe { wondraxu_power_down(*core, &s.gone_at, &s.flight, &s.tx, &s.host, &s.run_at, &s.run_len, &s.rx, cycle) }
}

#[inline]
pub(crate) fn has_left(core: &PlainCore) -> PlainReply {
    // SAFETY: the core is `Uart`'s own.
    unsafe { wondraxu_has_left(*core) }
}

#[inline]
pub(crate) fn host_pending(core: &PlainCore) -> PlainReply {
    // SAFETY: the core is `Uart`'s own.
    unsafe { wondraxu_host_pending(*core) }
}

/// Nothing is required: lists of two lengths are refused.
#[inline]
pub(crate) fn figures(starts: &[u64], ends: &[u64]) -> PlainFigures {
    // SAFETY: pointer and count are one slice's, each time, which is only read.
    unsafe { wondraxu_figures(starts.as_ptr(), starts.len(), ends.as_ptr(), ends.len()) }
}
