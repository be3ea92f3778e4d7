//! A row is its writes one by one: the same state, and the sum of what they report.
use super::{bench, done, queues, CLKDIV, CLK_CONF, FIFO, INT_ENA};
use crate::{Notice, Refusal, Row, Uart, BUFFER};

/// The counts of different notices, in the order in which they first come.
fn counted(notices: &[Notice]) -> Vec<(Notice, u64)> {
    let mut all: Vec<(Notice, u64)> = Vec::new();
    for &notice in notices {
        match all.iter_mut().find(|(known, _)| *known == notice) {
            Some((_, times)) => *times += 1,
            None => all.push((notice, 1)),
        }
    }
    all
}

/// The row on one UART, and its writes up to the first that is refused on another.
#[track_caller]
fn as_writes(uart: &mut Uart, now: u64, bytes: &[u8]) -> Row {
    let mut other = uart.clone();
    let (mut made, mut passes, mut overflows, mut notices) = (0, 0, 0, Vec::new());
    for &byte in bytes.iter().take(BUFFER) {
        let Ok(answer) = other.write(now, FIFO, u32::from(byte)) else { break };
        made += 1;
        passes += answer.report.passes();
        overflows += answer.report.overflows();
        notices.extend(answer.report.notices());
    }
    let row = uart.write_row(now, bytes).expect("the row is taken");
    assert_eq!((row.made(), row.passes(), row.overflows()), (made, passes, overflows));
    assert_eq!(row.notices().collect::<Vec<_>>(), counted(&notices));
    assert_eq!(uart.core, other.core);
    assert_eq!(queues(uart), queues(&other));
    assert_eq!((row.level(), row.wake()), (uart.core.level, uart.core.wake.set.then_some(uart.core.wake.at)));
    row
}

#[test]
fn a_row_is_its_writes() {
    let bytes: [u8; 200] = std::array::from_fn(|n| n as u8);
    for watched in [false, true] {
        for length in [1, 2, 96, 128, 129, 130, 200] {
            let mut uart = bench();
            done(uart.write(0, INT_ENA, 0x4113));
            done(uart.watch(0, watched));
            done(uart.receive(0, 0, &bytes));
            assert_eq!(as_writes(&mut uart, 5000, &bytes[..length]).made(), length);
            assert_eq!(as_writes(&mut uart, 5000, &bytes[..length]).made(), length);
            assert_eq!(as_writes(&mut uart, 90_000, &bytes[..length]).made(), length);
        }
    }
}

#[test]
fn a_byte_that_takes_no_time_leaves_in_the_next_write() {
    let mut uart = bench();
    done(uart.write(0, CLKDIV, 0));
    let row = as_writes(&mut uart, 10, &[7; 2000]);
    assert_eq!((row.made(), row.notices().count()), (1152, 0));
    assert_eq!(uart.write_row(10, &[7]), Err(Refusal::TransmitFull));
    assert_eq!(uart.write_row(9, &[7]), Err(Refusal::DateWentBack));
    assert_eq!(uart.write_row(11, &[]).map(|row| row.made()), Ok(0));
    let mut out = [0; BUFFER];
    assert_eq!(done(uart.take_tx(11, &mut out)).0, 1152);
}

#[test]
fn notices_come_once_with_their_counts() {
    for (clk_conf, sel) in [(0x0200_0000, 0), (0x0220_0000, 2)] {
        let mut uart = bench();
        done(uart.write(0, CLK_CONF, clk_conf));
        let row = as_writes(&mut uart, 1, &[1; 140]);
        let counts = vec![(Notice::UartClock(sel), 129), (Notice::UartOverflow, 11)];
        assert_eq!(row.notices().collect::<Vec<_>>(), counts);
    }
    let row = as_writes(&mut bench(), 1, &[1; 1200]);
    assert_eq!((row.made(), row.notices().collect::<Vec<_>>()), (1152, vec![(Notice::UartOverflow, 1023)]));
}

#[test]
fn a_row_of_a_million_bytes_is_cut_and_says_so() {
    let row = as_writes(&mut bench(), 1, &vec![0xA5; 1_000_000]);
    assert_eq!((row.made(), row.notices().collect::<Vec<_>>()), (1152, vec![(Notice::UartOverflow, 1023)]));
}

#[test]
fn a_row_is_cut_where_the_transmit_side_is_full() {
    let mut uart = bench();
    for burst in 0..9 {
        as_writes(&mut uart, burst * 100_000, &[3; 120]);
    }
    // 1,080 have left: there is room for 72.
    assert_eq!(as_writes(&mut uart, 900_000, &[4; 96]).made(), 72);
    assert_eq!(uart.write_row(900_000, &[5]), Err(Refusal::TransmitFull));
}
