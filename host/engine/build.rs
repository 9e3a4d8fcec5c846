//! Links the static library that `host/proved` puts there.

use std::path::Path;

fn main() {
    let root = Path::new(env!("CARGO_MANIFEST_DIR"))
        .ancestors()
        .nth(2)
        .expect("host/engine stands in the repository");
    let folder = root.join("target").join("staticlib");
    println!(
        "cargo:rerun-if-changed={}",
        folder.join("libexports.a").display()
    );
    println!("cargo:rustc-link-search=native={}", folder.display());
    println!("cargo:rustc-link-lib=static=exports");
}
