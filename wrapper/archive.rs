//! Which libtinshrew.a is linked: one rule for this package and for the tests.

use std::env;
use std::path::{Path, PathBuf};

/// The file that TINSHREW_LIB names, seen from the repository's folder; where it is unset or empty, the one that
/// `bash tools/build library` writes. None where that one is not there. A named one that is not there is an error.
pub fn archive() -> Option<PathBuf> {
    println!("cargo:rerun-if-env-changed=TINSHREW_LIB");
    let package = env::var_os("CARGO_MANIFEST_DIR").expect("cargo names the package's folder");
    let root = Path::new(&package).parent().expect("the package stands in the repository");
    let named = env::var_os("TINSHREW_LIB").filter(|path| !path.is_empty());
    let path = match &named {
        Some(path) => root.join(path),
        None => root.join("target/staticlib/libtinshrew.a"),
    };
    println!("cargo:rerun-if-changed={}", path.display());
    if named.is_some() && !path.is_file() {
        panic!("TINSHREW_LIB names no file: {}", path.display());
    }
    Some(path).filter(|path| path.is_file())
}
