//! The programs that judge: `expect`, `diverge` and `apply-edit` say yes and no where they should.
use std::fs;
use std::path::PathBuf;
use std::process::Command;

const SETUP: &str = "setup 0 4 8 12 16 20 24 28 32 36 40 44 48 52 56 60 \
    0 0 0 0 0 0x0080000A 0 0 0x1C 0xC060 0x02300000 0 0 0 0x000A0012 0";

/// A folder of files for one test.
struct Folder(PathBuf);

impl Folder {
    fn new(name: &str) -> Folder {
        let path = PathBuf::from(env!("CARGO_TARGET_TMPDIR")).join(name);
        fs::create_dir_all(&path).expect("a folder");
        Folder(path)
    }

    fn file(&self, name: &str, text: &str) -> String {
        let path = self.0.join(name);
        fs::write(&path, text).expect("written");
        path.to_str().expect("a path").to_owned()
    }
}

/// Whether the program ended well, and what it said.
fn run(program: &str, words: &[&str]) -> (bool, String) {
    let ended = Command::new(program).args(words).output().expect("ends");
    (ended.status.success(), String::from_utf8_lossy(&ended.stdout).into_owned())
}

#[test]
fn expect_takes_right_answers_and_refuses_wrong_ones() {
    let folder = Folder::new("expect");
    let trace = folder.file("trace", "# a comment\nhas_left\nhas_left\n\nwake 1\n");
    let expected = folder.file("expected", "# by hand\nx2 0 has_left=1\n0 done passes=1 ..\n");
    let meets = |answers: &str| {
        let answers = folder.file("answers", answers);
        run(env!("CARGO_BIN_EXE_expect"), &[&trace, &expected, &answers]).0
    };
    assert!(meets("0 has_left=1\n0 has_left=1\n0 done level=0 passes=1\n"));
    assert!(!meets("0 has_left=1\n0 has_left=0\n0 done level=0 passes=1\n"));
    assert!(!meets("0 has_left=1\n0 has_left=1\n0 done level=0 passes=2\n"));
    assert!(!meets("0 has_left=1\n0 has_left=1\n3\n"));
    assert!(!meets("0 has_left=1\n0 has_left=1\n"));
    assert!(!meets("0 has_left=1\n0 has_left=1\n0 done level=0 passes=1\n0\n"));
    assert!(!meets(""));
}

#[test]
fn diverge_shows_the_trace_from_its_setup() {
    let folder = Folder::new("diverge");
    let trace = folder.file("trace", &format!("{SETUP}\nhas_left\n{SETUP}\n# note\nhost_pending\nred\nhas_left\n"));
    let right = folder.file("right", "0\n0 has_left=0\n0\n0 host_pending=0\nerror: one\n0 has_left=0\n");
    let compare = |left: &str| {
        let left = folder.file("left", left);
        run(env!("CARGO_BIN_EXE_diverge"), &[&trace, &left, &right])
    };
    let (equal, said) = compare("0\n0 has_left=0\n0\n0 host_pending=0\nerror: another\n0 has_left=0\n");
    assert!(equal && said == "equal, 6 calls\n");
    let (equal, said) = compare("0\n0 has_left=0\n0\n0 host_pending=0\nerror: one\n0 has_left=1\n");
    assert!(!equal && said.contains("at call 6, line 7"));
    let shown: Vec<&str> = said.lines().collect();
    assert_eq!(shown[1..6], [SETUP, "# note", "host_pending", "red", "has_left"]);
    assert_eq!(shown[6..], ["left:  0 has_left=1", "right: 0 has_left=0"]);
    assert!(!compare("0\n0 has_left=0\n0\n0 host_pending=0\n0\n0 has_left=0\n").0);
    assert!(!compare("0\n0 has_left=0\n0\n0 host_pending=0\nerror: one\n").0);
    assert!(!compare("0\n0 has_left=0\n0\n0 host_pending=0\nerror: one\n0 has_left=0\n0\n").0);
    assert!(!compare("").0);
}

#[test]
fn apply_edit_changes_one_place_or_nothing() {
    let folder = Folder::new("apply-edit");
    let root = folder.0.to_str().expect("a path").to_owned();
    let apply = |text: &str, old: &str| {
        folder.file("file.rs", text);
        let edit = folder.file("edit", &format!("wrong: a test\nfile: file.rs\nold:\n{old}\nnew:\nnew\nend\n"));
        let taken = run(env!("CARGO_BIN_EXE_apply-edit"), &[&edit, &root]).0;
        (taken, fs::read_to_string(folder.0.join("file.rs")).expect("read"))
    };
    assert_eq!(apply("one two\nthree\n", "two\nthree"), (true, "one new\n".to_owned()));
    assert_eq!(apply("two two\n", "two"), (false, "two two\n".to_owned()));
    assert_eq!(apply("one\n", "two"), (false, "one\n".to_owned()));
}
