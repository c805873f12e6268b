//! Tells the linker where the static library is, or the user how to make it.

use std::env;
use std::path::{Path, PathBuf};

/// Names the folder of the static library, where it is not the repository's own.
const FOLDER_VARIABLE: &str = "CP1610_LIB";

/// Where `rt lib` puts it, seen from the repository's root, which is two folders above this crate.
const USUAL_FOLDER: &str = "crates/cp1610/out";

const LIBRARY: &str = "libcp1610.a";

/// Cargo sets it where the feature `library` is on.
const LIBRARY_FEATURE: &str = "CARGO_FEATURE_LIBRARY";

fn main() {
    println!("cargo::rerun-if-changed=build.rs");
    if env::var_os(LIBRARY_FEATURE).is_some() {
        link_library();
    }
}

/// The script runs again, and the crate is built again, whenever the library was made anew.
fn link_library() {
    let crate_folder = Path::new(env!("CARGO_MANIFEST_DIR"));
    let usual = || crate_folder.ancestors().nth(2).unwrap_or(crate_folder).join(USUAL_FOLDER);
    let folder = env::var_os(FOLDER_VARIABLE).map_or_else(usual, PathBuf::from);
    let library = folder.join(LIBRARY);
    println!("cargo::rerun-if-env-changed={FOLDER_VARIABLE}");
    println!("cargo::rerun-if-changed={}", library.display());
    if library.is_file() {
        println!("cargo::rustc-link-search=native={}", folder.display());
        println!("cargo::rustc-link-lib=static=cp1610");
    } else {
        println!(
            "cargo::error={} is missing: run `rt lib` in the repository's folder crates/cp1610, or name its folder in {FOLDER_VARIABLE}",
            library.display()
        );
    }
}
