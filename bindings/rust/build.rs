//! Links the library that `bindings/library` writes. DROM_LIB names its folder; without it that is
//! target/staticlib of the repository.

use std::env;
use std::path::PathBuf;

fn main() {
    println!("cargo:rerun-if-env-changed=DROM_LIB");
    let folder = env::var_os("DROM_LIB").map_or_else(default_folder, PathBuf::from);
    let library = folder.join("libcapi.a");
    println!("cargo:rerun-if-changed={}", library.display());
    if !library.is_file() {
        println!("cargo:warning={} is not there: DROM_LIB names its folder", library.display());
    }
    println!("cargo:rustc-link-search=native={}", folder.display());
    println!("cargo:rustc-link-lib=static=capi");
}

fn default_folder() -> PathBuf {
    PathBuf::from(env!("CARGO_MANIFEST_DIR")).join("../../target/staticlib")
}
