//! Each kind of notice comes out as its own case, in order.
use super::{bench, done, CLK_CONF, CONF0, CONF1, FIFO, INT_RAW, MEM_CONF, RS485_CONF};
use crate::{Feature, Notice, Report, Uart};

fn noted(report: Report) -> Vec<Notice> {
    report.notices().collect()
}

fn noted_by_write(uart: &mut Uart, offset: u32, value: u32) -> Vec<Notice> {
    noted(done(uart.write(0, offset, value)).1)
}

#[test]
fn the_fifos() {
    let mut uart = bench();
    for _ in 0..129 {
        assert_eq!(noted_by_write(&mut uart, FIFO, 1), []);
    }
    assert_eq!(noted_by_write(&mut uart, FIFO, 1), [Notice::UartOverflow]);
    let (value, report) = done(uart.read(0, FIFO));
    assert_eq!((value, noted(report)), (Some(0), vec![Notice::UartEmptyRead]));
}

#[test]
fn the_clocks() {
    for sel in [0, 2] {
        let mut uart = bench();
        assert_eq!(noted_by_write(&mut uart, CLK_CONF, 0x0200_0000 | sel << 20), []);
        assert_eq!(noted_by_write(&mut uart, FIFO, 1), [Notice::UartClock(sel)]);
        done(uart.receive(0, 0, &[1]));
        assert_eq!(noted(done(uart.read(1, FIFO)).1)[0], Notice::UartReceiveClock(sel));
    }
}

#[test]
fn the_modes_of_conf0_in_order() {
    use Feature::{Autobaud, InvertedRx, InvertedTx, Irda, Loopback, NoStopBit, TxBreak, TxFlowControl};
    let all = [TxBreak, Loopback, TxFlowControl, Irda, InvertedRx, InvertedTx, Autobaud, NoStopBit];
    assert_eq!(noted_by_write(&mut bench(), CONF0, 0x0849_C10C), all.map(Notice::UartFeature));
    for (bit, mode) in [8, 14, 15, 16, 19, 22, 27].into_iter().zip(all) {
        assert_eq!(noted_by_write(&mut bench(), CONF0, 0x1C | 1 << bit), [Notice::UartFeature(mode)]);
    }
}

#[test]
fn the_modes_of_the_other_registers() {
    let mut uart = bench();
    assert_eq!(noted_by_write(&mut uart, CONF1, 1 << 20), [Notice::UartFeature(Feature::RxFlowControl)]);
    assert_eq!(noted_by_write(&mut uart, RS485_CONF, 1), [Notice::UartFeature(Feature::Rs485)]);
    assert_eq!(noted_by_write(&mut uart, MEM_CONF, 0x000A_0014), [Notice::UartFeature(Feature::FifoSize)]);
}

#[test]
fn overflows_are_counted_and_no_notices() {
    let mut uart = bench();
    done(uart.receive(0, 0, &[1; 131]));
    let report = done(uart.wake(131 * 420)).1;
    assert_eq!((report.overflows(), noted(report)), (3, vec![]));
    assert_eq!(done(uart.read(131 * 420, INT_RAW)).0, Some(0x13));
}
