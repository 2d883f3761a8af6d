//! Links the proved static libraries, target/staticlib of the repository.

use std::path::PathBuf;
use std::{env, fs, process};

const LIBRARIES: [&str; 4] = [
    "number_exports",
    "geometry_exports",
    "plan_exports",
    "hold_exports",
];

fn main() {
    let package =
        PathBuf::from(env::var_os("CARGO_MANIFEST_DIR").expect("cargo names the package"));
    let folder = package.join("../../target/staticlib");
    for name in LIBRARIES {
        let library = folder.join(format!("lib{name}.a"));
        println!("cargo:rerun-if-changed={}", library.display());
        if !library.is_file() {
            eprintln!(
                "target/staticlib/lib{name}.a is not there: tools/static-libraries makes it"
            );
            process::exit(1);
        }
        println!("cargo:rustc-link-lib=static={name}");
    }
    let folder = fs::canonicalize(&folder).expect("the libraries are in it");
    println!("cargo:rustc-link-search=native={}", folder.display());
}
