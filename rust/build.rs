//! Links the proved library, `target/staticlib/libcard.a` at the root of the repository.
//! `CARD_LIB_DIR` names another folder to take it from.

use std::path::PathBuf;
use std::{env, process};

fn main() {
    println!("cargo:rerun-if-env-changed=CARD_LIB_DIR");
    let folder = folder();
    let library = folder.join("libcard.a");
    println!("cargo:rerun-if-changed={}", library.display());
    if !library.is_file() {
        eprintln!(
            "libcard.a is not in {}: build it with `scripts/build-archive` at the root of the repository.",
            folder.display()
        );
        process::exit(1);
    }
    println!("cargo:rustc-link-search=native={}", folder.display());
    println!("cargo:rustc-link-lib=static=card");
}

fn folder() -> PathBuf {
    match env::var_os("CARD_LIB_DIR") {
        Some(named) => PathBuf::from(named),
        None => {
            let here = env::var_os("CARGO_MANIFEST_DIR").expect("cargo names the package's folder");
            PathBuf::from(here).join("../target/staticlib")
        }
    }
}
