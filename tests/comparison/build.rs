//! Links the static library that `tests/library` writes.

use std::path::Path;

fn main() {
    let own = std::env::var("CARGO_MANIFEST_DIR").expect("set by cargo");
    let folder = Path::new(&own).join("../../target/staticlib");
    println!("cargo:rerun-if-changed={}", folder.join("libc_api.a").display());
    println!("cargo:rustc-link-search=native={}", folder.display());
}
