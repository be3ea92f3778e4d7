//! That the comparison can fail: a side that is wrong in one field of one kind of answer is caught, and where.
use crate::compare::{Comparison, Difference};
use crate::port::Port;
use crate::published::Published;
use crate::{Side, compare};
use programs::traces::{PROFILES, named};
use uart_box::calls::Call;

/// The port, with one text in its answers exchanged for another.
struct Wrong {
    port: Port,
    from: &'static str,
    to: &'static str,
}

impl Side for Wrong {
    fn call(&mut self, call: &Call, out: &mut Vec<u8>) {
        self.port.call(call, out);
        let text = whole(&String::from_utf8_lossy(out)).replacen(self.from, self.to, 1);
        out.clear();
        out.extend_from_slice(text.trim_start().as_bytes());
    }
}

/// A line between two line feeds, so that a text can ask for the whole of it.
fn whole(line: &str) -> String {
    format!("\n{line}")
}

fn first_difference(from: &'static str, to: &'static str) -> Option<Difference> {
    let wrong = || Wrong { port: Port::default(), from, to };
    PROFILES.iter().find_map(|profile| {
        let mut comparison = Comparison::new(wrong(), Published::default());
        let mut found = None;
        profile.write(1, 3000, |text| {
            if found.is_none() {
                found = comparison.lines(text).err();
            }
        });
        found
    })
}

#[test]
fn the_port_is_equal_on_every_profile() {
    for profile in &PROFILES {
        assert!(compare(profile, 1, 1000).is_ok_and(|calls| calls > 500), "{}", profile.name);
    }
}

#[test]
fn each_wrong_field_is_caught() {
    let wrong = [
        (" level=1", " level=0"),
        (" wake=-", " wake=0"),
        (" overflows=2", " overflows=3"),
        ("UartOverflow", "UartEmptyRead"),
        ("UartClock(2)", "UartClock(0)"),
        ("UartFeature(Irda)", "UartFeature(Rs485)"),
        (" passes=7", " passes=6"),
        ("value=none", "value=0x00000000"),
        ("accepted=0", "accepted=1"),
        ("made=0", "made=1"),
        ("made=1152", "made=1151"),
        ("UartOverflow*2", "UartOverflow*1"),
        ("UartClock(0)*129,UartOverflow*", "UartOverflow*129,UartClock(0)*"),
        ("rest=kept", "rest=changed"),
        ("has_left=1", "has_left=0"),
        ("host_pending=3", "host_pending=2"),
        (" longest=1 ", " longest=2 "),
        (" quiet=0 at=0 ", " quiet=0 at=- "),
        (" at=1 ", " at=2 "),
        (" remainder=1\n", " remainder=0\n"),
        ("\n9\n", "\n8\n"),
        ("\n5\n", "\n6\n"),
        ("\n8\n", "\n0\n"),
    ];
    for (from, to) in wrong {
        let difference = first_difference(from, to).unwrap_or_else(|| panic!("{from} for {to} is not caught"));
        let answer = whole(&format!("{}\n", difference.published));
        assert!(answer.contains(from), "{from}: caught at {answer}");
    }
}

/// The trace begins at the set-up that was taken and ends at the call that differs.
#[test]
fn the_trace_is_from_the_set_up_to_the_difference() {
    let setup = "setup 0 4 8 12 16 20 24 28 32 36 40 44 48 52 56 60 \
                 0 0 0 0 0 0x80000a 0 0 0x1c 0xc060 0x2300000 0 0 0 0xa0012 0";
    let doubled = setup.replacen("setup 0 4", "setup 4 4", 1);
    let mut comparison = Comparison::new(
        Wrong { port: Port::default(), from: "value=0x00000010", to: "value=0x00000000" },
        Published::default(),
    );
    assert_eq!(comparison.lines(format!("{setup}\nhas_left\n{setup}\n").as_bytes()), Ok(()));
    let rest = format!("write 100 0 0x41\n{doubled}\nno call\nread 519 28\nread 520 28\n");
    let difference = comparison.lines(rest.as_bytes()).expect_err("the value is wrong");
    let trace = ["write 100 0 0x41", "read 519 28"];
    assert_eq!(difference.trace.len(), 4);
    assert_eq!([&difference.trace[1], &difference.trace[3]], trace);
    assert!(difference.trace[2].starts_with("setup 4 4 8"));
    assert!(
        difference.port.starts_with("0 value=0x00000000 ") && difference.published.starts_with("0 value=0x00000010 ")
    );
}

/// A call before any set-up, and one after a refused set-up alone, find no UART on either side.
#[test]
fn a_refused_set_up_gives_no_uart() {
    let profile = named("maps").expect("there is a profile of that name");
    assert!(compare(profile, 7, 200).is_ok());
    let mut comparison = Comparison::new(Port::default(), Published::default());
    let doubled = format!("setup{} {}\nhas_left\nread 0 0\n", " 4".repeat(16), "0 ".repeat(16));
    assert_eq!(comparison.lines(doubled.as_bytes()), Ok(()));
    assert_eq!(comparison.calls, 3);
}
