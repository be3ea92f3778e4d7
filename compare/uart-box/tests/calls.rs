//! Reading and writing calls: each line that the writer makes is read back, and a fault is named.
use uart_box::calls::{Call, LONGEST_LINE, Setup, parse};
use uart_box::figures::Frame;

fn error(line: &str) -> String {
    parse(line.as_bytes()).expect_err(line)
}

#[test]
fn every_call_is_read_back_as_it_was_written() {
    let setup = Setup { offsets: std::array::from_fn(|i| 4 * i as u32), reset_words: [u32::MAX; 16] };
    let calls = [
        Call::Setup(Box::new(setup)),
        Call::Read { now: u64::MAX, offset: u32::MAX },
        Call::Write { now: 1, offset: 2, value: u32::MAX },
        Call::Receive { now: 1, at: u64::MAX, bytes: vec![0, 255] },
        Call::Receive { now: 1, at: 2, bytes: vec![] },
        Call::Wake { now: 7 },
        Call::Watch { now: 7, watched: true },
        Call::Watch { now: 7, watched: false },
        Call::Reset { now: 7 },
        Call::PowerDown { now: 7 },
        Call::Clock { now: 7, period: u64::MAX },
        Call::TakeTx { now: 7, length: 8192 },
        Call::TakeWritten { length: 0 },
        Call::HasLeft,
        Call::HostPending,
        Call::Figures { frames: vec![] },
        Call::Figures { frames: vec![Frame { start: 0, end: u64::MAX }, Frame { start: 7, end: 5 }] },
    ];
    for call in calls {
        assert_eq!(parse(call.line().as_bytes()), Ok(Some(call)));
    }
}

#[test]
fn a_fault_is_named_by_its_word() {
    assert!(error("reed 1 2").contains("`reed`"));
    assert!(error("read 0X10 4").contains("`0X10`"));
    assert!(error("read 1_000 4").contains("`1_000`"));
    assert!(error("read +1 4").contains("`+1`"));
    assert!(error("read 18446744073709551616 4").contains("`18446744073709551616`"));
    assert!(error("read 1 4294967296").contains("`4294967296`"));
    assert!(error("read 1 2 3").contains("`3`"));
    assert!(error("read 1").contains("OFFSET"));
    assert!(error("watch 1 2").contains("`2`"));
    assert!(error("watch 1 00").contains("`00`"));
    assert!(error("take_tx 1 8193").contains("`8193`"));
    assert!(error("receive 1 1 123").contains("`123`"));
    assert!(error("receive 1 1 5g").contains("`5g`"));
    assert!(error("wake 1\r").contains("`1\\r`"));
    assert!(error("read 0x 4").contains("`0x`"));
    assert!(error("figures 1 2 3").contains("`figures` lacks its word END"));
    assert!(error("figures 1 2x 3y").contains("`2x`"));
    assert!(error("figures 18446744073709551616").contains("`18446744073709551616`"));
}

#[test]
fn blank_lines_and_comments_are_passed_over_unless_too_long() {
    assert_eq!(parse(b""), Ok(None));
    assert_eq!(parse(b"   "), Ok(None));
    assert_eq!(parse(b"# read 1 2"), Ok(None));
    let mut long = vec![b'#'; LONGEST_LINE];
    assert_eq!(parse(&long), Ok(None));
    long.push(b'#');
    assert!(parse(&long).is_err());
}

#[test]
fn numbers_may_have_leading_zeros_and_digits_of_both_cases() {
    let read = Call::Read { now: 255, offset: 24 };
    assert_eq!(parse(b"read 0xfF 0x00000000000000000018"), Ok(Some(read.clone())));
    assert_eq!(parse(b"  read   000000000000000000000000255 24  "), Ok(Some(read)));
}
