//! The box kept in place: refused set-ups, refused calls, and long runs that must not grow.
use uart_box::session::Session;

const SETUP: &str = "setup 0 4 8 12 16 20 24 28 32 36 40 44 48 52 56 60 \
    0 0 0 0 0 0x0080000A 0 0 0x1C 0xC060 0x02300000 0 0 0 0x000A0012 0";

fn answers(session: &mut Session, lines: &[&str]) -> Vec<String> {
    let mut out = Vec::new();
    for line in lines {
        session.line(line.as_bytes(), &mut out);
    }
    String::from_utf8(out).expect("answers are text").lines().map(str::to_owned).collect()
}

#[test]
fn a_refused_setup_leaves_the_uart_before_in_place() {
    let mut session = Session::default();
    let repeated = SETUP.replacen("60 0", "56 0", 1);
    let given =
        answers(&mut session, &[&repeated, "has_left", SETUP, "write 5 52 0x7", &repeated, "read 5 52", "read 4 52"]);
    assert_eq!(given[0], "1");
    assert!(given[1].starts_with("error: "));
    assert_eq!(given[4], "1");
    assert!(given[5].starts_with("0 value=0x00000007 "));
    assert_eq!(given[6], "3");
}

#[test]
fn figures_need_no_uart_and_set_none_up() {
    let mut session = Session::default();
    let given = answers(&mut session, &["figures 5 9", "figures 5 4", "has_left", SETUP, "figures 5 4", "has_left"]);
    assert_eq!(given[0], "0 busy=4 shortest=4 longest=4 quiet=0 at=- mean=4 remainder=0");
    assert!(given[2].starts_with("error: "));
    assert_eq!((&given[1][..], &given[4][..], &given[5][..]), ("9", "9", "0 has_left=0"));
}

#[test]
fn a_reset_takes_the_reset_words_of_its_own_setup() {
    let mut one = Session::default();
    let mut other = Session::default();
    answers(&mut one, &[SETUP]);
    answers(&mut other, &[&SETUP.replacen("0x1C", "0x2C", 1)]);
    assert!(answers(&mut one, &["reset 1", "read 1 32"])[1].starts_with("0 value=0x0000001c "));
    assert!(answers(&mut other, &["reset 1", "read 1 32"])[1].starts_with("0 value=0x0000002c "));
}

/// Each dated call asserts that at most one wake-up is scheduled; this run makes many, and many notices.
#[test]
fn a_long_run_keeps_at_most_one_wake_up() {
    let mut session = Session::default();
    answers(&mut session, &[SETUP, "write 0 40 0x02000000", "write 0 20 1"]);
    for now in 1..20_000u64 {
        let lines = [
            format!("write {now} 0 0x41"),
            format!("wake {now}"),
            format!("read {now} 0"),
            format!("receive {now} {now} 55"),
            "take_written 1152".to_owned(),
        ];
        let lines: Vec<&str> = lines.iter().map(String::as_str).collect();
        assert_eq!(answers(&mut session, &lines).len(), lines.len());
    }
}
