//! Finds the verified archives of the target and links them: the hand-held's, and with the features `vehicle`, `office` and `desk` theirs too.

use std::env;
use std::path::{Path, PathBuf};

/// Where `./archive` writes them: Rust's target, its target.
const TARGETS: [(&str, &str); 6] = [
    ("x86_64-unknown-linux-gnu", "x86_64-linux"),
    ("aarch64-unknown-linux-gnu", "aarch64-linux"),
    ("thumbv7em-none-eabi", "cortex-m4"),
    ("thumbv7em-none-eabihf", "cortex-m4f"),
    ("thumbv8m.main-none-eabi", "cortex-m33"),
    ("thumbv8m.main-none-eabihf", "cortex-m33f"),
];

fn main() {
    println!("cargo::rerun-if-env-changed=OTAP_ARCHIVE_DIR");
    println!("cargo::rerun-if-changed=build.rs");
    let target = env::var("TARGET").unwrap_or_default();
    let known = TARGETS.iter().find(|row| row.0 == target).map(|row| row.1);
    let given = env::var_os("OTAP_ARCHIVE_DIR").filter(|given| !given.is_empty());
    match (given, known) {
        (Some(given), _) => link(Path::new(&given), "it is the folder that OTAP_ARCHIVE_DIR names"),
        (None, Some(name)) => {
            let directory = PathBuf::from("../../target/archive").join(name);
            link(&directory, &format!("`./archive {name}` in the repository writes it"));
        }
        (None, None) => {
            println!(
                "cargo::error=no archive is known for {target}: OTAP_ARCHIVE_DIR names its folder"
            );
        }
    }
}

fn link(directory: &Path, advice: &str) {
    // Cargo runs this in the package's own directory, but links elsewhere.
    let directory = directory.canonicalize().unwrap_or_else(|_| directory.to_path_buf());
    println!("cargo::rustc-link-search=native={}", directory.display());
    let asked = |feature: &str, name| env::var_os(feature).map(|_| name);
    let vehicle = asked("CARGO_FEATURE_VEHICLE", "otap_vehicle");
    let office = asked("CARGO_FEATURE_OFFICE", "otap_office");
    let desk = asked("CARGO_FEATURE_DESK", "otap_desk");
    for name in ["otap_handheld"].into_iter().chain(vehicle).chain(office).chain(desk) {
        let archive = directory.join(format!("lib{name}.a"));
        println!("cargo::rerun-if-changed={}", archive.display());
        if archive.is_file() {
            println!("cargo::rustc-link-lib=static={name}");
        } else {
            println!("cargo::error=there is no {}: {advice}", archive.display());
        }
    }
}
