//! Says where the engine's static library is: in the folder that JUNIPERPROW_LIBRARY_DIRECTORY names,
//! and without it in `target/staticlib` of the repository that this crate comes from.

use std::env;
use std::path::{Path, PathBuf};
use std::process::exit;

const OVERRIDE: &str = "JUNIPERPROW_LIBRARY_DIRECTORY";

fn main() {
    let folder = match env::var_os(OVERRIDE) {
        Some(folder) => PathBuf::from(folder),
        None => Path::new(env!("CARGO_MANIFEST_DIR")).join("../../target/staticlib"),
    };
    let library = folder.join("libjuniperprow.a");
    println!("cargo:rerun-if-env-changed={OVERRIDE}");
    println!("cargo:rerun-if-changed={}", library.display());
    if !library.is_file() {
        eprintln!("There is no {}.", library.display());
        eprintln!("`tools/library` in the engine's repository makes it.");
        eprintln!("A copy of this crate elsewhere wants {OVERRIDE} to name its folder, such as /PREFIX/lib after `tools/install /PREFIX` in that repository.");
        exit(1);
    }
    println!("cargo:rustc-link-search=native={}", folder.display());
    println!("cargo:rustc-link-lib=static=juniperprow");
}
