//! A row of 96 bytes at one cycle, as one call and as 96 calls, on UARTs of the same state: each way is a function of its own, which
//! callgrind counts. Both must leave the same bytes, wake and level, or it stops.
#[allow(dead_code)]
#[path = "../side.rs"]
mod side;
use std::hint::black_box;
use wondraxu::{BUFFER, Uart};

const NOW: u64 = 1000;
const ROW: [u8; 96] = [0x55; 96];

/// The wake and the level that the row leaves.
#[inline(never)]
fn one_call(uart: &mut Uart, bytes: &[u8]) -> (Option<u64>, bool) {
    uart.write_row(NOW, bytes).map_or((None, false), |row| (row.wake(), row.level()))
}

#[inline(never)]
fn call_by_call(uart: &mut Uart, bytes: &[u8]) -> (Option<u64>, bool) {
    let mut left = (None, false);
    for &byte in bytes {
        left = uart.write(NOW, 0, u32::from(byte)).map_or(left, |done| (done.report.wake(), done.report.level()));
    }
    left
}

fn written(mut uart: Uart) -> Vec<u8> {
    let mut out = [0; BUFFER];
    let count = uart.take_written(&mut out).expect("the buffer is long enough");
    out[..count].to_vec()
}

fn main() {
    let setup = side::settings();
    let mut one = Uart::new(setup.offsets, setup.reset_words).expect("set-up is taken");
    let mut other = one.clone();
    let row = black_box(ROW);
    let ours = one_call(&mut one, &row);
    let theirs = call_by_call(&mut other, &row);
    assert_eq!(ours, theirs);
    let (ours, theirs) = (written(one), written(other));
    assert_eq!(ours, theirs);
    assert_eq!(ours, ROW);
    println!("{} bytes", ROW.len());
}
