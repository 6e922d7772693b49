//! Links the proved library and its field functions, which `bench.sh` writes for this machine into the folder that `BENCH_LIB` names; with
//! the feature `lookup` the two libraries of the history too.

use std::env;

fn main() {
    println!("cargo::rerun-if-env-changed=BENCH_LIB");
    println!("cargo::rerun-if-changed=build.rs");
    let Ok(folder) = env::var("BENCH_LIB") else {
        println!("cargo::error=BENCH_LIB is not set: run rust/bench.sh");
        return;
    };
    let mut libraries = vec!["dustferrule", "fields"];
    if env::var("CARGO_FEATURE_LOOKUP").is_ok() {
        libraries.extend(["linear", "linear_known", "halving", "halving_known"]);
    }
    for library in libraries {
        println!("cargo::rerun-if-changed={folder}/lib{library}.a");
        println!("cargo::rustc-link-lib=static={library}");
    }
    println!("cargo::rustc-link-search=native={folder}");
}
