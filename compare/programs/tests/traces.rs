//! The generator: the same seed gives the same trace, each profile gives the calls asked for, and together they
//! reach every number, every notice and each queue's last free byte.
use programs::traces::{PROFILES, Profile};
use uart_box::session::Session;

fn trace(profile: &Profile, seed: u64, calls: u64) -> Vec<u8> {
    let mut text = Vec::new();
    profile.write(seed, calls, |part| text.extend_from_slice(part));
    text
}

fn answers(trace: &[u8]) -> String {
    let mut session = Session::default();
    let mut out = Vec::new();
    for line in trace.strip_suffix(b"\n").unwrap_or(trace).split(|&b| b == b'\n') {
        session.line(line, &mut out);
    }
    String::from_utf8(out).expect("answers are text")
}

#[test]
fn a_seed_gives_one_trace_and_another_seed_another() {
    for profile in &PROFILES {
        // The exhaustive profile begins with the same frame for every seed.
        let one = trace(profile, 7, 6_000);
        assert!(one == trace(profile, 7, 6_000), "{}: one seed, two traces", profile.name);
        assert!(one != trace(profile, 8, 6_000), "{}: two seeds, one trace", profile.name);
    }
}

#[test]
fn a_trace_has_the_calls_asked_for() {
    for profile in &PROFILES {
        assert_eq!(answers(&trace(profile, 3, 1_234)).lines().count(), 1_234, "{}", profile.name);
    }
}

/// Every answer of all profiles, some 180,000.
fn many() -> String {
    PROFILES.iter().map(|profile| answers(&trace(profile, 1, 10_000))).collect()
}

/// What some answer holds, beside the numbers and the features.
const PARTS: [&str; 33] = [
    "UartOverflow",
    "UartEmptyRead",
    "UartClock(0)",
    "UartClock(2)",
    "UartReceiveClock(0)",
    "UartReceiveClock(2)",
    "value=none",
    "accepted=0",
    "bytes=-",
    "level=1",
    "overflows=1 ",
    "wake=576460752303423488",
    "error: ",
    "host_pending=1024",
    "host_pending=1025",
    "value=0x0000007f",
    "value=0x00000080",
    "value=0x00800000",
    "0 made=0 ",
    "0 made=1 ",
    "0 made=96 ",
    "0 made=1152 ",
    "UartOverflow*1 ",
    "UartClock(0)*129,UartOverflow*",
    "UartClock(2)*",
    "0 busy=0 shortest=0 longest=0 quiet=0 at=- mean=0 remainder=0\n",
    " quiet=0 at=- ",
    " quiet=0 at=0 ",
    " quiet=1 at=0 ",
    " at=1 ",
    " at=1022 ",
    "longest=18446744073709551615 ",
    " shortest=1 ",
];

#[test]
fn all_profiles_together_reach_every_number_notice_and_edge() {
    let all = many();
    let lines: Vec<&str> = all.lines().collect();
    for number in 1..=9 {
        assert!(lines.contains(&number.to_string().as_str()), "number {number}");
    }
    let features =
        ["TxBreak", "Loopback", "TxFlowControl", "Irda", "InvertedRx", "InvertedTx", "Autobaud", "NoStopBit"];
    let others = ["RxFlowControl", "FifoSize", "Rs485"];
    for feature in features.iter().chain(&others) {
        assert!(all.contains(&format!("UartFeature({feature})")), "{feature}");
    }
    for part in PARTS {
        assert!(all.contains(part), "{part}");
    }
    let longest = lines.iter().filter_map(|line| line.split("bytes=").nth(1)?.split(' ').next()).map(str::len).max();
    assert_eq!(longest, Some(2 * 1_152));
}

/// The exhaustive profile reads each of the three registers at every cycle of its first frame, none left out:
/// the byte starts at 10, lands at 50, and its timeout comes at 90.
#[test]
fn every_cycle_of_a_frame_is_read() {
    let profile = programs::traces::named("every-cycle").expect("the profile");
    let text = String::from_utf8(trace(profile, 1, 6_000)).expect("text");
    for offset in [24, 4, 0] {
        let frame = first_round(&text, offset);
        let (first, last) = (frame[0], frame[frame.len() - 1]);
        assert!(first <= 9 && last >= 91, "offset {offset}: {first} to {last}");
        assert_eq!(frame, (first..=last).collect::<Vec<u64>>(), "offset {offset}");
    }
}

/// The cycles of the reads of one register in the first round: one to a run, rising.
fn first_round(text: &str, offset: u32) -> Vec<u64> {
    let mut cycles = Vec::new();
    // The last two lines of a run are a wake and a read of INT_RAW, which are not the read looked for.
    for run in text.split("setup ").skip(2) {
        let lines: Vec<&str> = run.lines().collect();
        let Some(body) = lines.get(..lines.len().saturating_sub(2)) else { break };
        let reads = body.iter().filter_map(|line| line.strip_prefix("read "));
        let found = reads.filter_map(|rest| rest.split_once(' ')).find(|&(_, at)| at == offset.to_string());
        match found.and_then(|(cycle, _)| cycle.parse().ok()) {
            Some(cycle) if cycles.last().is_none_or(|&last| cycle > last) => cycles.push(cycle),
            Some(_) => break,
            None if cycles.is_empty() => {}
            None => break,
        }
    }
    cycles
}
