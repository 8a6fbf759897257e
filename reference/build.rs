//! With the feature `board`, links libboard.a. Its directory is BOARD_LIB, or
//! target/staticlib beside this package.

use std::env;
use std::path::PathBuf;

fn main() {
    println!("cargo:rerun-if-changed=build.rs");
    println!("cargo:rerun-if-env-changed=BOARD_LIB");
    if env::var_os("CARGO_FEATURE_BOARD").is_none() {
        return;
    }
    let directory = match env::var_os("BOARD_LIB") {
        Some(given) => PathBuf::from(given),
        None => {
            let package = env::var_os("CARGO_MANIFEST_DIR").expect("cargo names the package");
            PathBuf::from(package).join("../target/staticlib")
        }
    };
    println!("cargo:rustc-link-search=native={}", directory.display());
    println!("cargo:rustc-link-lib=static=board");
    println!(
        "cargo:rerun-if-changed={}",
        directory.join("libboard.a").display()
    );
}
