//! How much stack a call takes, measured: the stack below the caller is painted, the call is made, and the lowest byte that it
//! changed is looked for. A line for each method of `wondraxu::Uart`: the most over a UART with nothing due and a busy one. Another
//! for `figures`, of the longest list.
#[allow(dead_code)]
#[path = "../side.rs"]
mod side;
use std::arch::asm;
use std::hint::black_box;
use wondraxu::{BUFFER, FRAMES, Uart, figures};

/// How far below the caller the stack is painted, in bytes.
const PAINTED: usize = 32 * 1024;
/// A byte that a call writes may be equal to one of them, hardly to both.
const PATTERNS: [u8; 2] = [0xA5, 0x3C];
/// Later than all that a busy UART waits for.
const LATER: u64 = 1_000_000;

type Method = fn(&mut Uart, &mut [u8], u64);

const METHODS: [(&str, Method); 14] = [
    ("read", |uart, _, now| every_offset(|offset| made(uart.read(now, offset)))),
    ("write", |uart, _, now| every_offset(|offset| made(uart.write(now, offset, 0x0849_C10C)))),
    ("write_row", |uart, out, now| made(uart.write_row(now, &out[..96]))),
    ("receive", |uart, out, now| made(uart.receive(now, now, &out[..16]))),
    ("wake", |uart, _, now| made(uart.wake(now))),
    ("watch", |uart, _, now| made(uart.watch(now, true))),
    ("reset", |uart, _, now| made(uart.reset(now))),
    ("power_down", |uart, _, now| made(uart.power_down(now))),
    ("clock_change", |uart, _, now| made(uart.clock_change(now, 5))),
    ("take_tx", |uart, out, now| made(uart.take_tx(now, out))),
    ("take_written", |uart, out, _| made(uart.take_written(out))),
    ("has_left", |uart, _, _| made(uart.has_left())),
    ("host_pending", |uart, _, _| made(uart.host_pending())),
    ("figures", |_, _, _| made(figures(&[(0, 0); FRAMES]))),
];

/// What a call answers is in memory, and goes nowhere.
fn made<T>(answer: T) {
    black_box(answer);
}

fn every_offset(mut call: impl FnMut(u32)) {
    (0..=16).for_each(|place| call(4 * place));
}

fn new() -> Uart {
    let setup = side::settings();
    Uart::new(setup.offsets, setup.reset_words).expect("the offsets are all different")
}

/// Bytes in flight, a host's row that waits and a byte on the line, all due long before `LATER`.
fn busy() -> Uart {
    let mut uart = new();
    for byte in 0..129 {
        let _ = uart.write(0, 0, byte);
    }
    let _ = uart.receive(0, 0, &[0x55; 900]);
    uart
}

/// Writes the pattern over the stack below the caller, and gives where that begins. What it points to is free again: only
/// `lowest_changed` looks there.
#[inline(never)]
fn painted(pattern: u8) -> *const u8 {
    let area = black_box([pattern; PAINTED]);
    black_box(area.as_ptr())
}

#[inline(never)]
fn lowest_changed(from: *const u8, pattern: u8) -> *const u8 {
    // SAFETY: the thread's stack is mapped there, as `painted` has just written to it, and nothing else runs on it.
    let changed = |n: &usize| unsafe { from.add(*n).read_volatile() } != pattern;
    from.wrapping_add((0..PAINTED).find(changed).unwrap_or(PAINTED))
}

/// The bytes below this frame that `work` takes.
#[inline(never)]
fn taken(work: &mut dyn FnMut(), pattern: u8) -> usize {
    let stack: usize;
    // SAFETY: it reads the stack pointer and nothing else.
    unsafe { asm!("mov {}, rsp", out(reg) stack, options(nomem, nostack, preserves_flags)) };
    let from = painted(pattern);
    work();
    let lowest = lowest_changed(from, pattern) as usize;
    assert!(lowest > from as usize, "a call takes all that is painted: {PAINTED} bytes are too few");
    // A call leaves gaps between what it writes: its frames are whole words.
    stack.saturating_sub(lowest).next_multiple_of(8)
}

fn most(method: Method) -> usize {
    let mut most = 0;
    for pattern in PATTERNS {
        for mut uart in [new(), busy()] {
            let mut out = [0; BUFFER];
            most = most.max(taken(&mut || method(&mut uart, &mut out, LATER), pattern));
        }
    }
    most
}

fn main() {
    let setup = side::settings();
    let mut set_up = || made(Uart::new(setup.offsets, setup.reset_words));
    let takes = PATTERNS.map(|pattern| taken(&mut set_up, pattern));
    println!("{:<14} {:>5}", "new", takes.into_iter().max().unwrap_or(0));
    for (name, method) in METHODS {
        println!("{name:<14} {:>5}", most(method));
    }
}
