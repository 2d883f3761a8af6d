//! Finds the Rust's source folder, holds each file to its pinned SHA-256, and tells the compiler
//! where they stand. Nothing is copied.

use sha2::{Digest, Sha256};
use std::path::{Path, PathBuf};
use std::{env, fs, process};

const VARIABLE: &str = "IGELBERT_MAPF";

fn main() {
    println!("cargo:rerun-if-env-changed={VARIABLE}");
    let package =
        PathBuf::from(env::var_os("CARGO_MANIFEST_DIR").expect("cargo names the package"));
    let oracle = package
        .parent()
        .expect("the package stands in the workspace");
    let pins = oracle.join("sources.sha256");
    println!("cargo:rerun-if-changed={}", pins.display());
    println!(
        "cargo:rerun-if-changed={}",
        oracle.join("mapf/build.rs").display()
    );

    let root = match env::var_os(VARIABLE) {
        Some(dir) => PathBuf::from(dir),
        None => oracle.join("../../shared/docs/src"),
    };
    let root = fs::canonicalize(&root).unwrap_or_else(|e| {
        stop(&format!(
            "{}: {e}. Name a checkout of open-rmf/mapf at bd3bab521a by {VARIABLE}",
            root.display()
        ))
    });
    let text =
        fs::read_to_string(&pins).unwrap_or_else(|e| stop(&format!("{}: {e}", pins.display())));
    for line in text.lines() {
        match line.split_once("  ") {
            Some((pin, name)) => hold(&root.join(name), pin),
            None => stop(&format!("{}: `{line}` is no pin", pins.display())),
        }
    }
    println!(
        "cargo:rustc-env=MAPF_MOTION={}",
        root.join("mapf/src/motion").display()
    );
}

fn hold(file: &Path, pin: &str) {
    println!("cargo:rerun-if-changed={}", file.display());
    let bytes = fs::read(file).unwrap_or_else(|e| stop(&format!("{}: {e}", file.display())));
    let found: String = Sha256::digest(&bytes)
        .iter()
        .map(|b| format!("{b:02x}"))
        .collect();
    if found != pin {
        stop(&format!(
            "{} is not the file of open-rmf/mapf bd3bab521a: its SHA-256 is {found}, pinned is {pin}",
            file.display()
        ));
    }
}

fn stop(why: &str) -> ! {
    eprintln!("{why}");
    process::exit(1);
}
