//! Links the static library of the exported calls, which `rust/build-lib` makes.
use std::env;
use std::path::PathBuf;

fn main() {
    let own = PathBuf::from(env::var("CARGO_MANIFEST_DIR").expect("cargo names the crate's folder"));
    let folder = env::var_os("WONDRAXU_LIB_DIR").map_or_else(|| own.join("../target/staticlib"), PathBuf::from);
    let library = folder.join("libwondraxu.a");
    println!("cargo:rerun-if-env-changed=WONDRAXU_LIB_DIR");
    println!("cargo:rerun-if-changed={}", library.display());
    assert!(library.is_file(), "{} is missing: run rust/build-lib first", library.display());
    println!("cargo:rustc-link-search=native={}", folder.display());
    println!("cargo:rustc-link-lib=static=wondraxu");
}
