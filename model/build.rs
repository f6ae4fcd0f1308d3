//! With the feature `product`, links the archive that `rt lib` writes in
//! `crates/exports`.

use std::path::Path;

fn main() {
    println!("cargo:rerun-if-changed=build.rs");
    if std::env::var_os("CARGO_FEATURE_PRODUCT").is_none() {
        return;
    }
    let package = std::env::var("CARGO_MANIFEST_DIR").expect("cargo names the package's folder");
    let folder = Path::new(&package).join("../crates/exports/out");
    let archive = folder.join("libexports.a");
    assert!(
        archive.exists(),
        "{} is not there: run `rt lib` in crates/exports first",
        archive.display()
    );
    println!("cargo:rerun-if-changed={}", archive.display());
    println!("cargo:rustc-link-search=native={}", folder.display());
    println!("cargo:rustc-link-lib=static=exports");
}
