//! Links the proved archive that `rt lib` writes in crates/exchange_c, and LEMON's network simplex where LEMON is installed.

use std::env::var;
use std::path::{Path, PathBuf};
use std::process::{Command, Stdio, exit};

fn main() {
    link_archive();
    println!("cargo:rustc-check-cfg=cfg(lemon)");
    println!("cargo:rerun-if-changed=lemon/best_total.cpp");
    println!("cargo:rerun-if-env-changed=CXX");
    if has_lemon() {
        link_lemon();
        println!("cargo:rustc-cfg=lemon");
    }
}

fn link_archive() {
    let root = Path::new(env!("CARGO_MANIFEST_DIR")).join("..");
    let folder = root.join("crates/exchange_c/out");
    let archive = folder.join("libexchange_c.a");
    println!("cargo:rerun-if-changed={}", archive.display());
    if !archive.is_file() {
        eprintln!("crates/exchange_c/out/libexchange_c.a is missing.");
        eprintln!("Run `rt lib` in crates/exchange_c first.");
        exit(1);
    }
    println!("cargo:rustc-link-search=native={}", folder.display());
    println!("cargo:rustc-link-lib=static=exchange_c");
}

/// Whether there is a C++ compiler that finds LEMON's headers.
fn has_lemon() -> bool {
    let status = compiler()
        .args(["-E", "-include", "lemon/network_simplex.h", "-x", "c++"])
        .arg("/dev/null")
        .stdout(Stdio::null())
        .stderr(Stdio::null())
        .status();
    status.is_ok_and(|status| status.success())
}

fn link_lemon() {
    let folder = PathBuf::from(var("OUT_DIR").expect("Cargo sets it"));
    let object = folder.join("best_total.o");
    run(compiler()
        .args(["-O3", "-c", "lemon/best_total.cpp", "-o"])
        .arg(&object));
    run(Command::new("ar")
        .arg("crs")
        .arg(folder.join("libbest_total.a"))
        .arg(&object));
    println!("cargo:rustc-link-search=native={}", folder.display());
    println!("cargo:rustc-link-lib=static=best_total");
    println!("cargo:rustc-link-lib=stdc++");
}

fn compiler() -> Command {
    Command::new(var("CXX").unwrap_or("c++".to_string()))
}

fn run(command: &mut Command) {
    let status = command.status().expect("the command is there");
    assert!(status.success(), "{command:?} failed");
}
