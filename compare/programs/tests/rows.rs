//! A row is its writes one by one: of each trace one UART gets the rows, another one each row as single writes.
use programs::traces::{PROFILES, Profile};
use uart_box::answers;
use uart_box::calls::{self, Call};
use uart_box::session::Session;

fn answer(session: &mut Session, call: &Call) -> String {
    let mut text = Vec::new();
    if let Some(answer) = session.call(call) {
        answers::put(&mut text, &answer);
    }
    String::from_utf8(text).expect("an answer is text").trim_end().to_owned()
}

fn field<'a>(line: &'a str, name: &str) -> &'a str {
    line.split(' ').find_map(|word| word.strip_prefix(name)).unwrap_or_else(|| panic!("{name} in {line}"))
}

fn sum(answers: &[String], name: &str) -> u64 {
    answers.iter().map(|line| field(line, name).parse::<u64>().expect("a number")).sum()
}

/// The notices of single writes as a row has them.
fn counted(answers: &[String]) -> String {
    let all: Vec<&str> =
        answers.iter().flat_map(|line| field(line, "notices=").split(',')).filter(|&name| name != "-").collect();
    let mut different: Vec<&str> = Vec::new();
    for name in &all {
        if !different.contains(name) {
            different.push(name);
        }
    }
    let times = |name: &str| all.iter().filter(|&&other| other == name).count();
    let counts: Vec<String> = different.iter().map(|name| format!("{name}*{}", times(name))).collect();
    if counts.is_empty() { "-".to_owned() } else { counts.join(",") }
}

/// The writes of a row, up to the first that is refused; that one's number, if one is.
fn one_by_one(session: &mut Session, now: u64, fifo: u32, bytes: &[u8]) -> (Vec<String>, Option<String>) {
    let mut made = Vec::new();
    for &byte in bytes.iter().take(1_152) {
        let line = answer(session, &Call::Write { now, offset: fifo, value: u32::from(byte) });
        if !line.starts_with("0 ") {
            return (made, Some(line));
        }
        made.push(line);
    }
    (made, None)
}

/// Both UARTs: `rows` gets each call as it stands, `writes` single writes.
#[derive(Default)]
struct Both {
    rows: Session,
    writes: Session,
    fifo: u32,
    compared: u64,
}

impl Both {
    fn call(&mut self, call: &Call) {
        let line = answer(&mut self.rows, call);
        if let Call::WriteRow { now, bytes } = call {
            return self.row(*now, bytes, &line);
        }
        assert_eq!(line, answer(&mut self.writes, call), "{}", call.line());
        if let (Call::Setup(setup), "0") = (call, &line[..]) {
            self.fifo = setup.offsets[0];
        }
    }

    fn row(&mut self, now: u64, bytes: &[u8], line: &str) {
        self.compared += 1;
        let (made, refused) = one_by_one(&mut self.writes, now, self.fifo, bytes);
        if !line.starts_with("0 ") {
            // A row without a byte is refused for its date alone, as every dated call is.
            let refused = refused.unwrap_or_else(|| answer(&mut self.writes, &Call::Wake { now }));
            return assert_eq!((line, made.len()), (&refused[..], 0));
        }
        let counts =
            format!("made={} overflows={} passes={}", made.len(), sum(&made, "overflows="), sum(&made, "passes="));
        let said = ["made=", "overflows=", "passes="].map(|name| format!("{name}{}", field(line, name))).join(" ");
        assert_eq!((said, field(line, "notices=")), (counts, &counted(&made)[..]));
        if let Some(last) = made.last() {
            assert_eq!((field(line, "level="), field(line, "wake=")), (field(last, "level="), field(last, "wake=")));
        }
        assert!(!made.is_empty() || bytes.is_empty(), "no write was made, and the row was not refused: {line}");
    }
}

fn compared(profile: &Profile) -> u64 {
    let mut both = Both::default();
    profile.write(11, 3_000, |text| {
        for line in text.split(|&byte| byte == b'\n') {
            if let Ok(Some(call)) = calls::parse(line) {
                both.call(&call);
            }
        }
    });
    both.compared
}

#[test]
fn a_row_is_its_writes_on_every_profile() {
    let rows: Vec<(&str, u64)> = PROFILES.iter().map(|profile| (profile.name, compared(profile))).collect();
    let total: u64 = rows.iter().map(|(_, count)| count).sum();
    assert!(total > 1_000, "{rows:?}");
}
