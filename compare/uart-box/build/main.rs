//! Takes the published files for the build: checks their sums, copies uart.rs, ctx.rs, clock.rs and diag.rs,
//! cuts `Storage` out of periph/mod.rs, and puts the two lines that this comparison adds into uart.rs.
mod sha256;

use std::path::{Path, PathBuf};
use std::{env, fs, process};

const PUBLISHED: &str = "../../third_party/inkemu";
const SOURCE: &str = "crates/soc-esp32c3/src";
const FILES: [&str; 5] = ["periph/uart.rs", "ctx.rs", "clock.rs", "periph/mod.rs", "diag.rs"];

/// The head of the function whose calls are the passes, and the line that counts them.
const PASS_HEAD: &str = "    fn take_next_on_the_line(&mut self, ctx: &mut Ctx, now: u64) -> bool {\n";
const PASS_COUNT: &str = "        crate::passes::count_one();\n";
/// The line after the last of uart.rs: a child module, which sees the private fields and only reads them.
const LOOKS: &str = "#[path = \"looks.rs\"] pub(crate) mod looks;\n";

/// `Storage` in periph/mod.rs: from its comment up to the comment of what follows it.
const STORAGE_FROM: &str = "/// Registers deliberately modelled as plain read/write memory";
const STORAGE_TO: &str = "/// Index of the register at `offset` in a block of `count` consecutive";

fn fail(message: &str) -> ! {
    eprintln!("compare: {message}");
    println!("cargo::error={message}");
    process::exit(1);
}

fn read(path: &Path) -> String {
    match fs::read_to_string(path) {
        Ok(text) => text,
        Err(error) => fail(&format!("{}: {error}", path.display())),
    }
}

fn write(path: &Path, text: &str) {
    if let Err(error) = fs::write(path, text) {
        fail(&format!("{}: {error}", path.display()));
    }
}

/// The sum that SHA256SUMS has for `path`.
fn listed_sum<'a>(sums: &'a str, path: &str) -> &'a str {
    let row = sums.lines().find_map(|line| {
        let (sum, name) = line.split_once("  ")?;
        (name == path).then_some(sum)
    });
    row.unwrap_or_else(|| fail(&format!("third_party/inkemu/SHA256SUMS has no line for {path}")))
}

/// The text of one published file, its sum checked.
fn published(root: &Path, sums: &str, file: &str) -> String {
    let path = format!("{SOURCE}/{file}");
    let full = root.join(&path);
    println!("cargo::rerun-if-changed={}", full.display());
    let text = match fs::read_to_string(&full) {
        Ok(text) => text,
        Err(error) => fail(&format!("third_party/inkemu/{path} is missing or cannot be read: {error}")),
    };
    let (listed, found) = (listed_sum(sums, &path), sha256::sha256(text.as_bytes()));
    if listed != found {
        fail(&format!("third_party/inkemu/{path} is not the published file: SHA-256 {found}, listed {listed}"));
    }
    text
}

/// Where `part` stands in `text`, if it stands there once and only once.
fn once(text: &str, part: &str, file: &str) -> usize {
    match text.matches(part).count() {
        1 => text.find(part).unwrap_or(0),
        n => fail(&format!("{file} has {n} places, not 1, with the text: {}", part.trim())),
    }
}

fn with_two_lines(uart: &str) -> String {
    let head_ends = once(uart, PASS_HEAD, "uart.rs") + PASS_HEAD.len();
    let (before, after) = uart.split_at(head_ends);
    format!("{before}{PASS_COUNT}{after}{LOOKS}")
}

fn storage(periph: &str) -> &str {
    let from = once(periph, STORAGE_FROM, "periph/mod.rs");
    let to = once(periph, STORAGE_TO, "periph/mod.rs");
    &periph[from..to]
}

/// A `mod` line for a file of the build's own folder.
fn module(out: &Path, visibility: &str, name: &str) -> String {
    format!("#[path = {:?}] {visibility} mod {name};\n", out.join(format!("{name}.rs")))
}

fn main() {
    let here = PathBuf::from(env::var_os("CARGO_MANIFEST_DIR").unwrap_or_default());
    let out = PathBuf::from(env::var_os("OUT_DIR").unwrap_or_default());
    let root = here.join(PUBLISHED);
    let sums_path = root.join("SHA256SUMS");
    println!("cargo::rerun-if-changed={}", sums_path.display());
    println!("cargo::rerun-if-changed=src/looks.rs");
    println!("cargo::rerun-if-changed=build");
    let sums = read(&sums_path);
    // Every sum is checked before the first file is written.
    let [uart, ctx, clock, periph, diag] = FILES.map(|file| published(&root, &sums, file));
    write(&out.join("uart.rs"), &with_two_lines(&uart));
    write(&out.join("looks.rs"), &read(&here.join("src/looks.rs")));
    write(&out.join("ctx.rs"), &ctx);
    write(&out.join("clock.rs"), &clock);
    write(&out.join("diag.rs"), &diag);
    write(&out.join("storage.rs"), storage(&periph));
    let top: String = ["clock", "ctx", "diag"].map(|name| module(&out, "pub", name)).concat();
    write(&out.join("published.rs"), &top);
    write(&out.join("published_uart.rs"), &module(&out, "pub", "uart"));
    println!("cargo::rustc-cfg=test");
}
