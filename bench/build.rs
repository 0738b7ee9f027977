//! Compiles the peer as its maker would: `cc -O3`.

use std::env;
use std::path::Path;
use std::process::Command;

fn run(program: &str, words: &[&str]) {
    let status = Command::new(program).args(words).status();
    assert!(
        status.is_ok_and(|status| status.success()),
        "{program} {words:?} failed"
    );
}

fn main() {
    println!("cargo:rerun-if-changed=peer");
    println!("cargo:rerun-if-env-changed=CC");
    let out = env::var("OUT_DIR").unwrap_or_default();
    let compiler = env::var("CC").unwrap_or_else(|_| String::from("cc"));
    let object = format!("{out}/peer.o");
    let archive = format!("{out}/libpeer.a");
    run(
        &compiler,
        &["-O3", "-fPIC", "-c", "peer/peer.c", "-o", &object],
    );
    if Path::new(&archive).exists() {
        let _ = std::fs::remove_file(&archive);
    }
    run("ar", &["rcs", &archive, &object]);
    println!("cargo:rustc-link-search=native={out}");
    println!("cargo:rustc-link-lib=static=peer");
}
