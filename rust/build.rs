//! Links the proved reader: TYPE_NAME_LIB names the folder of libtype_name.a, absolute or relative to this package.

use std::env;
use std::path::Path;

/// Where `tools/library` puts it.
const MADE_IN: &str = "../target/staticlib";

fn main() {
    println!("cargo::rerun-if-env-changed=TYPE_NAME_LIB");
    let named = env::var("TYPE_NAME_LIB").unwrap_or(MADE_IN.to_owned());
    let package = env::var("CARGO_MANIFEST_DIR").expect("Cargo names the package's folder");
    // The packages that depend on this one are linked in other folders.
    let folder = Path::new(&package).join(named);
    let library = folder.join("libtype_name.a");
    println!("cargo::rerun-if-changed={}", library.display());
    if !library.is_file() {
        println!(
            "cargo::error=no {}: `tools/library` makes it, TYPE_NAME_LIB names its folder",
            library.display()
        );
    }
    println!("cargo::rustc-link-search=native={}", folder.display());
    println!("cargo::rustc-link-lib=static=type_name");
}
