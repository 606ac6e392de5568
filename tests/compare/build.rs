//! Links the static library libabi.a from the folder that ELECTION_LIB_DIR names (an absolute path).

fn main() {
    println!("cargo:rerun-if-env-changed=ELECTION_LIB_DIR");
    match std::env::var("ELECTION_LIB_DIR") {
        Ok(folder) => {
            println!("cargo:rerun-if-changed={folder}/libabi.a");
            println!("cargo:rustc-link-search=native={folder}");
            println!("cargo:rustc-link-lib=static:-bundle=abi");
        }
        Err(_) => {
            println!("cargo:warning=ELECTION_LIB_DIR is not set: compare can be checked, not run")
        }
    }
}
