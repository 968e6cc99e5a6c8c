//! Links the archive of the proved box, which `tools/archive` writes.

use std::env;

fn main() {
    let here = env::var("CARGO_MANIFEST_DIR").expect("cargo names the folder");
    println!("cargo:rustc-link-search=native={here}/../target/staticlib");
    println!("cargo:rustc-link-lib=static=c_face");
    println!("cargo:rerun-if-changed={here}/../target/staticlib/libc_face.a");
}
