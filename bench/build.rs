//! Links the static library that `tools/build ponduvizh` writes, and notes the versions of both compilers.

use std::env;
use std::path::Path;
use std::process::Command;

fn main() {
    let here = env::var("CARGO_MANIFEST_DIR").unwrap();
    let folder = env::var("PONDUVIZH_LIB").unwrap_or("../target/staticlib".into());
    let folder = Path::new(&here).join(folder);
    println!("cargo:rustc-link-search=native={}", folder.display());
    println!("cargo:rustc-link-lib=static=ponduvizh");
    let archive = folder.join("libponduvizh.a");
    println!("cargo:rerun-if-changed={}", archive.display());
    println!("cargo:rerun-if-env-changed=PONDUVIZH_LIB");
    order();
    let rustc = env::var("RUSTC").unwrap_or("rustc".into());
    let rustc = said(&rustc, "--version");
    println!("cargo:rustc-env=BENCH_RUSTC={rustc}");
    println!("cargo:rustc-env=BENCH_RATTLE={}", said("rt", "version"));
}

/// With the functions of both sides in another order in memory where `BENCH_ORDER` is a number above 0: where code stands moves some times by itself.
fn order() {
    println!("cargo:rerun-if-env-changed=BENCH_ORDER");
    let order = env::var("BENCH_ORDER").unwrap_or("0".into());
    if order == "0" {
        println!("cargo:rustc-env=BENCH_BUILD=as it comes");
        return;
    }
    println!("cargo:rustc-env=BENCH_BUILD=order {order}");
    println!("cargo:rustc-link-arg-bins=-Wl,--shuffle-sections=.text*={order}");
}

fn said(program: &str, word: &str) -> String {
    let said = Command::new(program).arg(word).output();
    let said = said.map_or(Vec::new(), |out| out.stdout);
    String::from_utf8_lossy(&said).trim().to_string()
}
