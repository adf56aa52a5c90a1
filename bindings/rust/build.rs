//! Says where the archive of the proved table is: in the folder that `RISHAVAND_LIB` names, else where `reference/build exports`
//! writes it.

use std::env;
use std::path::{Path, PathBuf};

const ARCHIVE: &str = "libexports.a";

fn main() {
    println!("cargo:rerun-if-env-changed=RISHAVAND_LIB");
    let folder = match env::var_os("RISHAVAND_LIB") {
        Some(folder) => PathBuf::from(folder),
        None => Path::new(env!("CARGO_MANIFEST_DIR")).join("../../target/staticlib"),
    };
    let archive = folder.join(ARCHIVE);
    if !archive.is_file() {
        // A link error would name every symbol and not the reason.
        eprintln!(
            "no {}: run `reference/build exports`, or set RISHAVAND_LIB to its folder",
            archive.display()
        );
        std::process::exit(1);
    }
    println!("cargo:rerun-if-changed={}", archive.display());
    println!("cargo:rustc-link-search=native={}", folder.display());
    println!("cargo:rustc-link-lib=static=exports");
}
