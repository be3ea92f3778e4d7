//! A refused call answers its number, and every field, every slot and every byte of a lent buffer stay as they were.
use super::{bench, done, FIFO};
use crate::{Answered, Refusal, Uart, BUFFER};
use std::fmt::Debug;

/// A UART with something in every queue, at cycle 1,000.
fn busy() -> Uart {
    let mut uart = bench();
    for byte in 0..5 {
        done(uart.write(100, FIFO, byte));
    }
    done(uart.receive(100, 100, &[1, 2, 3, 4]));
    done(uart.receive(100, 9000, &[5]));
    done(uart.wake(1000));
    uart
}

/// `call` is refused for the reason `why` and changes nothing.
#[track_caller]
fn refuses<T: Debug>(uart: &mut Uart, why: Refusal, call: impl FnOnce(&mut Uart) -> Answered<T>) {
    let before = uart.clone();
    assert_eq!(call(uart).expect_err("the call is refused"), why);
    assert_eq!(uart.core, before.core);
    assert!(uart.slots == before.slots, "a slot changed");
}

#[test]
fn numbers_are_those_of_the_papers() {
    use Refusal::*;
    let of_a_uart =
        [RepeatedOffset, DatePastEnd, DateWentBack, TransmitFull, HostFull, RunsFull, PeriodTooLong, BufferTooShort];
    for (number, refusal) in (1..).zip(of_a_uart.into_iter().chain([UnfitList])) {
        assert_eq!(refusal.number(), number);
        assert_eq!(Refusal::of(u32::from(number)), Err(refusal));
        assert!(!refusal.to_string().is_empty());
    }
    assert_eq!(Refusal::of(0), Ok(()));
}

#[test]
fn set_up_with_a_repeated_offset() {
    let mut offsets: [u32; 16] = std::array::from_fn(|place| 4 * place as u32);
    offsets[15] = offsets[0];
    assert_eq!(Uart::new(offsets, [0; 16]).expect_err("set-up is refused"), Refusal::RepeatedOffset);
}

/// Every dated call, at a date past the end and at one that went back.
#[test]
fn dates() {
    for (now, why) in [(1 << 59, Refusal::DatePastEnd), (u64::MAX, Refusal::DatePastEnd), (999, Refusal::DateWentBack)]
    {
        let uart = &mut busy();
        refuses(uart, why, |uart| uart.read(now, FIFO));
        refuses(uart, why, |uart| uart.write(now, FIFO, 1));
        refuses(uart, why, |uart| uart.receive(now, now, &[1]));
        refuses(uart, why, |uart| uart.wake(now));
        refuses(uart, why, |uart| uart.watch(now, true));
        refuses(uart, why, |uart| uart.reset(now));
        refuses(uart, why, |uart| uart.power_down(now));
        refuses(uart, why, |uart| uart.clock_change(now, 1));
        refuses(uart, why, |uart| uart.take_tx(now, &mut [0; BUFFER]));
    }
}

#[test]
fn a_full_transmit_side() {
    let mut uart = bench();
    for round in 0..9 {
        let now = round * 1_000_000;
        for byte in 0..128 {
            done(uart.write(now, FIFO, byte));
        }
    }
    refuses(&mut uart, Refusal::TransmitFull, |uart| uart.write(8_000_000, FIFO, 1));
    let mut out = [0; BUFFER];
    assert_eq!(uart.take_written(&mut out), Ok(BUFFER));
}

#[test]
fn a_full_host_queue_and_full_runs() {
    let uart = &mut busy();
    let room = 1024 - uart.core.host.count;
    refuses(uart, Refusal::HostFull, |uart| uart.receive(1000, 9000, &vec![1; room + 1]));
    // Two runs wait already.
    for at in 10_003..=10_064 {
        done(uart.receive(1000, at, &[1]));
    }
    refuses(uart, Refusal::RunsFull, |uart| uart.receive(1000, 10_065, &[1]));
    done(uart.receive(1000, 10_064, &[1]));
}

#[test]
fn a_period_too_long() {
    let uart = &mut busy();
    refuses(uart, Refusal::PeriodTooLong, |uart| uart.clock_change(1000, 1_000_001));
    done(uart.clock_change(1000, 1_000_000));
}

#[test]
fn a_buffer_too_short() {
    let uart = &mut busy();
    for length in [0, 1, BUFFER - 1] {
        let mut out = vec![0xA5; length];
        refuses(uart, Refusal::BufferTooShort, |uart| uart.take_tx(1000, &mut out));
        let before = uart.clone();
        assert_eq!(uart.take_written(&mut out), Err(Refusal::BufferTooShort));
        assert!(uart.core == before.core && uart.slots == before.slots);
        assert!(out.iter().all(|&byte| byte == 0xA5), "a refused call wrote to the buffer");
    }
}

/// What is handed out stands at the front, and the rest of the buffer is as it was lent.
#[test]
fn the_rest_of_a_lent_buffer() {
    let uart = &mut busy();
    let mut out = [0xA5; BUFFER + 7];
    let count = done(uart.take_tx(1000, &mut out)).0;
    assert_eq!(&out[..count], [0, 1]);
    assert!(out[count..].iter().all(|&byte| byte == 0xA5));
    assert_eq!(uart.take_written(&mut out), Ok(3));
    assert_eq!(&out[..3], [2, 3, 4]);
    assert!(out[3..].iter().all(|&byte| byte == 0xA5));
}
