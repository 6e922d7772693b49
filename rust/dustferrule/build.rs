//! Finds the proved library: in the folder that `DUSTFERRULE_LIB` names, an archive for the processor that the build is for; else where
//! `./run library` writes it, an archive for x86-64.

use std::env;
use std::path::{Path, PathBuf};

const ARCHIVE: &str = "libdustferrule.a";

fn main() {
    println!("cargo::rerun-if-env-changed=DUSTFERRULE_LIB");
    println!("cargo::rerun-if-changed=build.rs");

    let target = env::var("TARGET").unwrap_or_default();
    let folder = match env::var_os("DUSTFERRULE_LIB") {
        Some(folder) => PathBuf::from(folder),
        None if target.starts_with("x86_64-") => {
            Path::new(env!("CARGO_MANIFEST_DIR")).join("../../target/staticlib")
        }
        None => {
            println!(
                "cargo::error=the proved library is for x86-64, and this build is for {target}: build with `--target x86_64-unknown-linux-gnu`, or name the folder of an archive for {target} in DUSTFERRULE_LIB (docs/FIRMWARE.md)"
            );
            return;
        }
    };
    let archive = folder.join(ARCHIVE);
    if !archive.is_file() {
        println!(
            "cargo::error=there is no {}: run `./run library` in the root of the repository, or name the folder that holds {ARCHIVE} in DUSTFERRULE_LIB",
            archive.display()
        );
        return;
    }
    println!("cargo::rerun-if-changed={}", archive.display());
    println!("cargo::rustc-link-search=native={}", folder.display());
    println!("cargo::rustc-link-lib=static=dustferrule");
}
