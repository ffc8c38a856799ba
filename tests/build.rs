//! Links libstrip.a from STRIP_LIB_DIR, or from ../build beside this package.

use std::env;
use std::path::PathBuf;
use std::process::exit;

fn main() {
    let package = PathBuf::from(env::var("CARGO_MANIFEST_DIR").expect("cargo names the package"));
    let folder = match env::var("STRIP_LIB_DIR") {
        Ok(named) => PathBuf::from(named),
        Err(_) => package.join("../build"),
    };
    let library = folder.join("libstrip.a");
    if !library.exists() {
        eprintln!("{} is not there: run `make lib` first", library.display());
        exit(1);
    }
    println!("cargo:rerun-if-env-changed=STRIP_LIB_DIR");
    println!("cargo:rerun-if-changed={}", library.display());
    println!("cargo:rustc-link-search=native={}", folder.display());
    println!("cargo:rustc-link-lib=static=strip");
}
