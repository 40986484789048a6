//! Says where the static library lies, and that a new one is to be linked again.

use std::env;
use std::path::Path;

fn main() {
    let package = env::var("CARGO_MANIFEST_DIR").expect("cargo names the package's folder");
    let libraries = Path::new(&package).join("../../target/staticlib");
    println!("cargo::rustc-link-search=native={}", libraries.display());
    println!(
        "cargo::rerun-if-changed={}",
        libraries.join("libreplay_probe.a").display()
    );
}
