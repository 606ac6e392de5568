//! Links the proved archive, from ELECTION_LIB_DIR or ../target/staticlib: libabi.a as `bin/install` leaves it there, or
//! libelection.a as that names it in the folder that it fills.
use std::env;
use std::path::PathBuf;

fn main() {
    let default =
        PathBuf::from(env::var_os("CARGO_MANIFEST_DIR").unwrap()).join("../target/staticlib");
    let dir = env::var_os("ELECTION_LIB_DIR").map_or(default, PathBuf::from);
    println!("cargo:rerun-if-env-changed=ELECTION_LIB_DIR");
    let Some(name) = ["abi", "election"]
        .into_iter()
        .find(|name| dir.join(format!("lib{name}.a")).is_file())
    else {
        panic!(
            "no libabi.a and no libelection.a in {}: run bin/install, or set ELECTION_LIB_DIR",
            dir.display()
        );
    };
    println!(
        "cargo:rerun-if-changed={}",
        dir.join(format!("lib{name}.a")).display()
    );
    println!("cargo:rustc-link-search=native={}", dir.display());
    println!("cargo:rustc-link-lib=static={name}");
}
