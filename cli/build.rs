//! Links libargon2, the reference implementation of Argon2.

fn main() {
    println!("cargo:rerun-if-changed=build.rs");
    println!("cargo:rustc-link-lib=argon2");
}
