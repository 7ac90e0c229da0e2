//! Links the static library that `./vc library` builds.

use std::path::PathBuf;

fn main() {
    let package = std::env::var("CARGO_MANIFEST_DIR").expect("cargo names the package's folder");
    let folder = PathBuf::from(package).join("../../target/staticlib");
    println!("cargo:rustc-link-search=native={}", folder.display());
    println!("cargo:rustc-link-lib=static=vcmailbox");
    println!("cargo:rerun-if-changed={}", folder.join("libvcmailbox.a").display());
}
