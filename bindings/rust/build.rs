//! Links libh5i.a of the folder that H5I_LIBRARY_DIR names, else of the repository's build/, else the system's.

use std::path::PathBuf;

fn main() {
    println!("cargo:rerun-if-env-changed=H5I_LIBRARY_DIR");
    let own = PathBuf::from(std::env::var_os("CARGO_MANIFEST_DIR").expect("cargo sets it")).join("../../build");
    let folder = match std::env::var_os("H5I_LIBRARY_DIR") {
        Some(folder) => Some(PathBuf::from(folder)),
        None => own.join("libh5i.a").exists().then_some(own),
    };
    if let Some(folder) = folder {
        println!("cargo:rerun-if-changed={}", folder.join("libh5i.a").display());
        println!("cargo:rustc-link-search=native={}", folder.display());
    }
    println!("cargo:rustc-link-lib=static=h5i");
}
