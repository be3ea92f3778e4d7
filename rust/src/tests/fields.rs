//! Every field of the core has the value that document 01 gives it: a field that the two sides place differently is seen.
use super::{bench, counted, done, queues, Queues, CLK_CONF, FIFO, INT_ENA, STATUS};
use crate::plain::{Cursor, PlainCore, PlainDate, PlainFigures, RegisterMap, Words};
use crate::{calls, Notice, Uart, BUFFER};

const NONE: PlainDate = PlainDate { set: false, at: 0 };

fn at(at: u64) -> PlainDate {
    PlainDate { set: true, at }
}

/// The queues hold `held`, and every other field is as in `core`, whose counts are taken from `held`.
#[track_caller]
fn holds(uart: &Uart, core: PlainCore, held: Queues) {
    let count = |count| Cursor { start: 0, count };
    let core = PlainCore {
        flight: count(held.flight.len()),
        tx: count(held.tx.len()),
        host: count(held.host.len()),
        runs: count(held.runs.len()),
        rx: count(held.rx.len()),
        ..core
    };
    assert_eq!(counted(uart), core);
    assert_eq!(queues(uart), held);
}

#[test]
fn set_up_places_every_word() {
    let offsets: [u32; 16] = std::array::from_fn(|place| 0x1000 + 0x11 * place as u32);
    let mut resets: [u32; 16] = std::array::from_fn(|place| 0x8100_0001 + 0x0001_0100 * place as u32);
    resets[6] = u32::MAX;
    let [.., mem_conf, mem_rx_status] = resets;
    let [_, _, _, int_ena, _, clkdiv, _, _, conf0, conf1, clk_conf, idle_conf, rs485_conf, at_cmd_char, _, _] = resets;
    let words = Words { int_ena, clkdiv, conf0, conf1, clk_conf, idle_conf, rs485_conf, at_cmd_char, mem_conf };
    let none = Cursor { start: 0, count: 0 };
    let core = PlainCore {
        map: RegisterMap { offsets, reset: words, idle_status: 0xFC00_FC00, mem_rx_status },
        words,
        int_raw: 2,
        rx_mistimed: 0,
        idle_since: NONE,
        line_free_at: 0,
        period: 8,
        last: 0,
        wake: NONE,
        powered_down_at: NONE,
        timed_on: 0,
        on_the_line: false,
        heard: false,
        watched: false,
        level: false,
        flight: none,
        tx: none,
        host: none,
        runs: none,
        rx: none,
        byte: 0,
    };
    let uart = Uart::new(offsets, resets).expect("the offsets are all different");
    assert_eq!(uart.core, core);
}

#[test]
fn each_word_is_written_to_its_own_field() {
    let mut uart = bench();
    let mut core = counted(&uart);
    let mut word = 0x4040_0100;
    for place in [3, 5, 8, 9, 10, 11, 12, 13, 14] {
        word += 0x0001_0001;
        let words = &mut core.words;
        *match place {
            3 => &mut words.int_ena,
            5 => &mut words.clkdiv,
            8 => &mut words.conf0,
            9 => &mut words.conf1,
            10 => &mut words.clk_conf,
            11 => &mut words.idle_conf,
            12 => &mut words.rs485_conf,
            13 => &mut words.at_cmd_char,
            _ => &mut words.mem_conf,
        } = word;
        assert!(done(uart.write(0, 4 * place, word)).0);
        assert_eq!(uart.core.words, core.words);
        assert_eq!(done(uart.read(0, 4 * place)).0, Some(word));
    }
    assert_eq!(counted(&uart).map, core.map);
}

#[test]
fn sending() {
    let mut uart = bench();
    let mut core = counted(&uart);
    done(uart.watch(7, true));
    (core.watched, core.last) = (true, 7);
    holds(&uart, core, Queues::default());
    for byte in [0x41, 0x42, 0x43] {
        done(uart.write(100, FIFO, byte));
    }
    (core.last, core.wake) = (100, at(520));
    let flight = vec![(16_640, 0x41), (30_080, 0x42), (43_520, 0x43)];
    holds(&uart, core, Queues { flight: flight.clone(), ..Queues::default() });
    done(uart.wake(940));
    (core.last, core.wake) = (940, at(1360));
    let tx = vec![0x41, 0x42];
    holds(&uart, core, Queues { flight: flight[2..].to_vec(), tx, ..Queues::default() });
    done(uart.write(940, INT_ENA, 0x4000));
    core.words.int_ena = 0x4000;
    done(uart.watch(941, false));
    (core.watched, core.last) = (false, 941);
    assert_eq!(counted(&uart).watched, core.watched);
    done(uart.wake(1360));
    (core.int_raw, core.level, core.last, core.wake) = (0x4002, true, 1360, NONE);
    holds(&uart, core, Queues { tx: vec![0x41, 0x42, 0x43], ..Queues::default() });
    assert_eq!(uart.has_left(), Ok(true));
    let mut out = [0; BUFFER];
    assert_eq!(done(uart.take_tx(1360, &mut out)).0, 3);
    assert_eq!(&out[..4], [0x41, 0x42, 0x43, 0]);
    holds(&uart, core, Queues::default());
}

#[test]
fn receiving() {
    let mut uart = bench();
    let mut core = counted(&uart);
    done(uart.clock_change(3, 5));
    (core.period, core.last) = (5, 3);
    holds(&uart, core, Queues::default());
    done(uart.receive(100, 100, &[1, 2, 3]));
    done(uart.receive(100, 5000, &[4]));
    (core.last, core.wake) = (100, at(520));
    (core.on_the_line, core.heard, core.byte, core.line_free_at) = (true, true, 1, 16_640);
    let runs = vec![(3200, 2), (160_000, 1)];
    holds(&uart, core, Queues { host: vec![2, 3, 4], runs, ..Queues::default() });
    done(uart.wake(520));
    (core.last, core.wake, core.byte, core.line_free_at) = (520, at(940), 2, 30_080);
    let runs = vec![(3200, 1), (160_000, 1)];
    holds(&uart, core, Queues { host: vec![3, 4], runs, rx: vec![1], ..Queues::default() });
    assert_eq!(uart.host_pending(), Ok(3));
    done(uart.wake(1360));
    (core.last, core.wake, core.idle_since, core.line_free_at) = (1360, at(5420), at(43_520), 43_520);
    (core.on_the_line, core.heard, core.byte) = (false, false, 0);
    let last = Queues { host: vec![4], runs: vec![(160_000, 1)], ..Queues::default() };
    holds(&uart, core, Queues { rx: vec![1, 2, 3], host: last.host.clone(), runs: last.runs.clone(), ..last });
    assert_eq!(done(uart.read(1361, FIFO)).0, Some(1));
    core.last = 1361;
    holds(&uart, core, Queues { rx: vec![2, 3], host: vec![4], runs: vec![(160_000, 1)], ..Queues::default() });
}

/// Power-down sets its date alone; a reset ends it, drops what was received and keeps the host's bytes.
#[test]
fn power_down_and_reset() {
    let mut uart = bench();
    done(uart.receive(0, 0, &[9]));
    done(uart.wake(420));
    let mut core = counted(&uart);
    assert_eq!((core.idle_since, core.rx.count), (at(13_440), 1));
    done(uart.receive(421, 5000, &[8]));
    (core.last, core.wake) = (421, at(5420));
    done(uart.power_down(440));
    (core.last, core.powered_down_at) = (440, at(14_080));
    let waits = |rx: Vec<u8>| Queues { host: vec![8], runs: vec![(160_000, 1)], rx, ..Queues::default() };
    holds(&uart, core, waits(vec![9]));
    done(uart.reset(450));
    (core.last, core.powered_down_at, core.idle_since) = (450, NONE, NONE);
    holds(&uart, core, waits(vec![]));
}

/// Sources 0 and 2 stand as 1 and 3, in the byte on the line and in what the receiver showed, each without the other.
#[test]
fn sources_without_a_frequency() {
    for (clk_conf, code, sel) in [(0x0200_0000, 1, 0), (0x0220_0000, 3, 2)] {
        let mut uart = bench();
        done(uart.write(0, CLK_CONF, clk_conf));
        done(uart.receive(100, 100, &[5]));
        done(uart.wake(100));
        let core = counted(&uart);
        assert_eq!((core.words.clk_conf, core.timed_on, core.rx_mistimed), (clk_conf, code, code));
        let (value, report) = done(uart.read(101, STATUS));
        assert_eq!((value, report.notices().collect()), (Some(0), vec![Notice::UartReceiveClock(sel)]));
        assert_eq!((counted(&uart).timed_on, counted(&uart).rx_mistimed), (code, 0));
        done(uart.wake(520));
        assert_eq!((counted(&uart).timed_on, counted(&uart).rx_mistimed), (0, code));
    }
}

/// With the receiver's clock off a byte is on the line and its start is not heard.
#[test]
fn a_start_that_is_not_heard() {
    let mut uart = bench();
    done(uart.write(0, CLK_CONF, 0x0030_0000));
    done(uart.receive(0, 0, &[6]));
    done(uart.wake(0));
    let core = counted(&uart);
    assert_eq!((core.on_the_line, core.heard, core.byte, core.line_free_at), (true, false, 6, 13_440));
    assert_eq!(uart.host_pending(), Ok(1));
}

/// No two figures of the four frames are the same. One frame has no place, and a refusal nothing but its number.
#[test]
fn figures() {
    let none = PlainFigures {
        number: 9,
        placed: false,
        busy: 0,
        shortest: 0,
        longest: 0,
        quiet: 0,
        at: 0,
        mean: 0,
        remainder: 0,
    };
    let (starts, ends) = ([3, 20, 60, 92], [10, 41, 72, 97]);
    let one = PlainFigures { number: 0, busy: 7, shortest: 7, longest: 7, mean: 7, ..none };
    assert_eq!(calls::figures(&starts[..1], &ends[..1]), one);
    let four = PlainFigures { busy: 45, shortest: 5, longest: 21, mean: 11, remainder: 1, ..one };
    assert_eq!(calls::figures(&starts, &ends), PlainFigures { placed: true, quiet: 20, at: 2, ..four });
    assert_eq!(calls::figures(&starts, &ends[..3]), none);
    assert_eq!(calls::figures(&starts[..3], &ends), none);
    assert_eq!(calls::figures(&ends, &starts), none);
    assert_eq!(calls::figures(&[], &[]), PlainFigures { number: 0, ..none });
}
