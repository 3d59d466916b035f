//! Links the proved library, `libbindcricket.a`, from the folder BINDCRICKET_LIB or from where
//! `tools/build-library` puts it.

use std::env;
use std::path::{Path, PathBuf};

fn main() {
    println!("cargo::rerun-if-env-changed=BINDCRICKET_LIB");
    println!("cargo::rerun-if-changed=build.rs");
    let folder = match env::var_os("BINDCRICKET_LIB") {
        Some(folder) => PathBuf::from(folder),
        None => Path::new(env!("CARGO_MANIFEST_DIR")).join("../../target/staticlib"),
    };
    let library = folder.join("libbindcricket.a");
    println!("cargo::rerun-if-changed={}", library.display());
    if library.is_file() {
        println!("cargo::rustc-link-search=native={}", folder.display());
        println!("cargo::rustc-link-lib=static=bindcricket");
    } else {
        println!(
            "cargo::error=there is no {}. Run `tools/build-library` in the root of the repository, \
             or set BINDCRICKET_LIB to the folder (an absolute path) of libbindcricket.a",
            library.display()
        );
    }
}
