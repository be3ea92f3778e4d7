//! Figures are of their line alone: a trace without them has the same other answers.
use programs::traces::{PROFILES, Profile};
use uart_box::calls::{self, Call};
use uart_box::session::Session;

/// The answers of a trace to all that is no list of frames, and how many lists there were; `asked` says whether they are
/// asked at all.
fn others(profile: &Profile, asked: bool) -> (Vec<u8>, u64) {
    let (mut session, mut out, mut lists) = (Session::default(), Vec::new(), 0);
    profile.write(5, 3_000, |text| {
        for line in text.split(|&byte| byte == b'\n') {
            if matches!(calls::parse(line), Ok(Some(Call::Figures { .. }))) {
                lists += 1;
                if asked {
                    session.line(line, &mut Vec::new());
                }
            } else {
                session.line(line, &mut out);
            }
        }
    });
    (out, lists)
}

#[test]
fn a_list_of_frames_changes_nothing_of_a_uart() {
    for profile in &PROFILES {
        let ((with, lists), (without, _)) = (others(profile, true), others(profile, false));
        assert!(with == without, "{}", profile.name);
        assert!(lists > 10 || !["figures", "mixed", "numbers", "lines"].contains(&profile.name), "{lists}");
    }
}
