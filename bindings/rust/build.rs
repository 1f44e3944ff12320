//! Finds libcordspar.a in the folder CORDSPAR_LIB_DIR, or else in ../../lib.
use std::path::PathBuf;
use std::{env, process};

fn main() {
    println!("cargo:rerun-if-env-changed=CORDSPAR_LIB_DIR");
    let folder = match env::var_os("CORDSPAR_LIB_DIR") {
        Some(folder) => PathBuf::from(folder),
        None => PathBuf::from(env::var_os("CARGO_MANIFEST_DIR").unwrap()).join("../../lib"),
    };
    let library = folder.join("libcordspar.a");
    if !library.is_file() {
        eprintln!(
            "there is no {}: scripts/build-library makes it",
            library.display()
        );
        process::exit(1);
    }
    println!("cargo:rerun-if-changed={}", library.display());
    println!("cargo:rustc-link-search=native={}", folder.display());
    println!("cargo:rustc-link-lib=static=cordspar");
}
