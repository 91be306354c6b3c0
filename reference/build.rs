//! The lists are the answers of one Rust on one kind of machine; a build with any other stops here.

use std::env;
use std::process::Command;

const RUSTC: &str = "rustc 1.95.0 (59807616e 2026-04-14)";
const MACHINE: &str = "x86_64";

fn main() {
    println!("cargo:rerun-if-changed=build.rs");
    let rustc = env::var("RUSTC").expect("cargo names its compiler");
    let said = Command::new(rustc).arg("--version").output();
    let said = said.expect("the compiler tells its version").stdout;
    let said = String::from_utf8_lossy(&said);
    assert!(
        said.trim() == RUSTC,
        "made with {RUSTC}, not {}",
        said.trim()
    );
    let machine = env::var("CARGO_CFG_TARGET_ARCH").expect("cargo names the machine");
    assert!(machine == MACHINE, "made for {MACHINE}, not {machine}");
}
