//! Makes one change in a copy of the tree: a wrong version, to see whether traces tell it apart.
use programs::usage;
use std::fs;
use std::path::Path;

const USAGE: &str = "\
usage: apply-edit EDIT ROOT
EDIT is a file of these parts, each on lines of its own, in this order:
    wrong: what is wrong
    file: the file, from ROOT on
    old:
    the text that stands there once
    new:
    the text in its place, which may be empty
    end
Status 1, and nothing changed, where the old text does not stand there once and only once.
";

/// One change of one file.
struct Edit<'a> {
    file: &'a str,
    old: &'a str,
    new: &'a str,
}

fn parse(text: &str) -> Option<Edit<'_>> {
    let (head, rest) = text.split_once("\nold:\n")?;
    let (old, rest) = rest.split_once("\nnew:\n")?;
    let new = if rest.starts_with("end\n") { "" } else { rest.split_once("\nend\n")?.0 };
    head.lines().find(|line| line.starts_with("wrong: "))?;
    let file = head.lines().find_map(|line| line.strip_prefix("file: "))?;
    Some(Edit { file, old, new })
}

fn main() {
    let words = usage::words(USAGE);
    let [name, root] = &words[..] else {
        usage::bad("apply-edit", "EDIT and ROOT are expected", USAGE);
    };
    let fail = |reason: String| -> ! { usage::fail("apply-edit", &format!("{name}: {reason}")) };
    let text = fs::read_to_string(name).unwrap_or_else(|error| fail(error.to_string()));
    let Some(edit) = parse(&text) else { fail("not the parts of an edit, see --help".to_owned()) };
    let path = Path::new(root).join(edit.file);
    let before = fs::read_to_string(&path).unwrap_or_else(|error| fail(format!("{}: {error}", edit.file)));
    let places = before.matches(edit.old).count();
    if places != 1 {
        fail(format!("the old text stands {places} times in {}", edit.file));
    }
    if let Err(error) = fs::write(&path, before.replacen(edit.old, edit.new, 1)) {
        fail(format!("{}: {error}", edit.file));
    }
}
