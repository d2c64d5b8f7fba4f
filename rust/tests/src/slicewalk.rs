//! The program `slicewalk`, and the lines that it reads.

use std::env;
use std::path::PathBuf;

/// Where `rt run` and `rt ci` leave the program.
const BUILT: &str = concat!(env!("CARGO_MANIFEST_DIR"), "/../../crates/slicewalk/out");

/// The program, in the folder that `HIWALGAM_BIN` names or else where it was built.
pub fn slicewalk() -> PathBuf {
    let folder = env::var_os("HIWALGAM_BIN").map_or_else(|| BUILT.into(), PathBuf::from);
    let program = folder.join("slicewalk");
    if !program.is_file() {
        panic!("no file {}: {}", program.display(), ADVICE);
    }
    program
}

const ADVICE: &str =
    "build it with `rt run` in crates/slicewalk, or set HIWALGAM_BIN to its folder";

/// Frame 01: a geometry.
pub fn geometry_line(b: u16, s: u16, p: u16) -> String {
    format!("01{b:04x}{s:04x}{p:04x}")
}

/// Frame 02: a permutation, or anything in its place.
pub fn permutation_line(slices: &[u16]) -> String {
    let slices = slices.iter().map(|slice| format!("{slice:04x}"));
    format!("02{}", slices.collect::<String>())
}

/// Frame 03: a write to a block.
pub fn request_line(volume: u8, address: u32) -> String {
    format!("03{volume:02x}{address:08x}")
}
