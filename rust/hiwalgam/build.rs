//! Links the proved static library `libhiwalgam.a`, from the folder that `HIWALGAM_LIB` names or
//! else from the repository's `target/staticlib`. The archive needs no other library beside it.

use std::env;
use std::path::{Path, PathBuf};

const ADVICE: &str =
    "build it with `tools/library`, or set HIWALGAM_LIB to the absolute path of its folder";

fn main() {
    println!("cargo:rerun-if-env-changed=HIWALGAM_LIB");
    let folder = env::var_os("HIWALGAM_LIB").map_or_else(built_folder, PathBuf::from);
    let archive = folder.join("libhiwalgam.a");
    println!("cargo:rerun-if-changed={}", archive.display());
    let found = folder.canonicalize().ok().filter(|_| archive.is_file());
    let Some(folder) = found else {
        panic!("no file {}: {ADVICE}", archive.display());
    };
    println!("cargo:rustc-link-search=native={}", folder.display());
    println!("cargo:rustc-link-lib=static=hiwalgam");
}

/// The folder in which `tools/library` leaves the archive.
fn built_folder() -> PathBuf {
    let package = env::var_os("CARGO_MANIFEST_DIR").expect("cargo sets CARGO_MANIFEST_DIR");
    let repository = Path::new(&package).ancestors().nth(2);
    let repository = repository.expect("the package stands in the repository's rust/");
    repository.join("target/staticlib")
}
