//! Links libsculldrip.a, from the directory in SCULLDRIP_LIB_DIR or else from target/staticlib of the project.

use std::env;
use std::path::PathBuf;

const LIBRARY: &str = "libsculldrip.a";

fn main() {
    println!("cargo:rerun-if-env-changed=SCULLDRIP_LIB_DIR");
    let directory = library_directory();
    let library = directory.join(LIBRARY);
    println!("cargo:rerun-if-changed={}", library.display());
    if library.is_file() {
        println!("cargo:rustc-link-search=native={}", directory.display());
        println!("cargo:rustc-link-lib=static=sculldrip");
    } else {
        // What calls no function of the library, such as the test of the reference, can still be built.
        println!("cargo:warning={} is missing: nothing that uses the library can be linked", library.display());
    }
}

fn library_directory() -> PathBuf {
    match env::var_os("SCULLDRIP_LIB_DIR") {
        Some(directory) => PathBuf::from(directory),
        None => {
            let package = PathBuf::from(env::var_os("CARGO_MANIFEST_DIR").expect("cargo sets it"));
            package.join("../../target/staticlib")
        }
    }
}
