//! Names the folder of `libhiwalgam_bench.a`, which stands beside the proved static library: the one
//! that `HIWALGAM_LIB` names or else the repository's `target/staticlib`. Only the benchmark `ciphers`
//! links that archive, so that everything else builds without it; it is linked again when the folder
//! changes.

use std::env;
use std::path::PathBuf;

/// Where `tools/library` leaves the archive.
const BUILT: &str = concat!(env!("CARGO_MANIFEST_DIR"), "/../../target/staticlib");

fn main() {
    println!("cargo:rerun-if-env-changed=HIWALGAM_LIB");
    let folder = env::var_os("HIWALGAM_LIB").map_or_else(|| BUILT.into(), PathBuf::from);
    // The folder and not the archive: cargo takes a file that is missing for one that changed.
    println!("cargo:rerun-if-changed={}", folder.display());
    if let Ok(folder) = folder.canonicalize() {
        println!("cargo:rustc-link-search=native={}", folder.display());
    }
}
