//! Finds `libabi.a`: in the directory named by `ELECTION_LIB_DIR`, else in `../target/staticlib`.

use std::env;
use std::path::PathBuf;

fn main() {
    println!("cargo:rerun-if-env-changed=ELECTION_LIB_DIR");
    let named = env::var("ELECTION_LIB_DIR").unwrap_or_else(|_| "../target/staticlib".into());
    let here = PathBuf::from(env::var("CARGO_MANIFEST_DIR").expect("cargo sets it"));
    let dir = here.join(named);
    let library = dir.join("libabi.a");
    assert!(
        library.exists(),
        "no libabi.a in {}: set ELECTION_LIB_DIR",
        dir.display()
    );
    println!("cargo:rerun-if-changed={}", library.display());
    println!("cargo:rustc-link-search=native={}", dir.display());
    println!("cargo:rustc-link-lib=static=abi");
}
