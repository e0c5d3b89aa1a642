//! Holds where the two archives of the library are found: in `target/staticlib` at the root of the
//! repository, but the board's in the directory that `LIBBUJORELM` names, if it names one.

use std::env;
use std::path::{Path, PathBuf};

fn main() {
    let package = env::var("CARGO_MANIFEST_DIR").expect("cargo names the package's directory");
    println!("cargo:rerun-if-env-changed=LIBBUJORELM");
    let built = Path::new(&package).join("../../target/staticlib");
    let named = env::var("LIBBUJORELM").map_or_else(|_| built.clone(), PathBuf::from);
    // Both have the board's archive at times: the first directory decides.
    for (half, directory) in [("bujorelm", named), ("bujorelm_tool", built)] {
        let library = directory.join(format!("lib{half}.a"));
        assert!(
            library.exists(),
            "{} is missing: build it with `host/build {half}`",
            library.display()
        );
        println!("cargo:rustc-link-search=native={}", directory.display());
        // A rebuilt library has to be linked anew.
        println!("cargo:rerun-if-changed={}", library.display());
    }
}
