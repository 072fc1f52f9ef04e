//! Links the static library that `./build scrhost` makes.

use std::path::Path;

fn main() {
    let folder = Path::new(env!("CARGO_MANIFEST_DIR")).join("../../target/staticlib");
    println!("cargo:rustc-link-search=native={}", folder.display());
    println!("cargo:rustc-link-lib=static=scrhost");
    println!("cargo:rerun-if-changed={}", folder.join("libscrhost.a").display());
}
