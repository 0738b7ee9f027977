//! Links `libjurnadel.a` from the folder `JURNADEL_LIB_DIR`, or from crates/jurnadel/out at the top of the tree.

use std::env;
use std::path::PathBuf;

fn main() {
    println!("cargo:rerun-if-env-changed=JURNADEL_LIB_DIR");
    let folder = match env::var_os("JURNADEL_LIB_DIR") {
        Some(folder) => PathBuf::from(folder),
        None => PathBuf::from(env::var_os("CARGO_MANIFEST_DIR").unwrap_or_default()).join("../../crates/jurnadel/out"),
    };
    if folder.is_relative() {
        println!(
            "cargo:warning=JURNADEL_LIB_DIR={}: give the full path, since this is looked up from another folder",
            folder.display()
        );
    }
    let archive = folder.join("libjurnadel.a");
    println!("cargo:rerun-if-changed={}", archive.display());
    if !archive.exists() {
        println!(
            "cargo:warning=no {}: make it by `make library`, or set JURNADEL_LIB_DIR to the folder that has it",
            archive.display()
        );
    }
    println!("cargo:rustc-link-search=native={}", folder.display());
    println!("cargo:rustc-link-lib=static=jurnadel");
}
