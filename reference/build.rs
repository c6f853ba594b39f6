//! With the feature `archive`, links the library's archive. It stands in
//! `../target/staticlib`, or in the folder that `TRAIL_ARCHIVE_DIR` names.

use std::env;
use std::path::{Path, PathBuf};

fn main() {
    println!("cargo:rerun-if-changed=build.rs");
    println!("cargo:rerun-if-env-changed=TRAIL_ARCHIVE_DIR");
    if env::var_os("CARGO_FEATURE_ARCHIVE").is_some() {
        link_archive(&archive_folder());
    }
}

fn archive_folder() -> PathBuf {
    let package = env::var_os("CARGO_MANIFEST_DIR").expect("cargo names the package");
    match env::var_os("TRAIL_ARCHIVE_DIR") {
        Some(folder) => PathBuf::from(folder),
        None => Path::new(&package).join("../target/staticlib"),
    }
}

fn link_archive(folder: &Path) {
    let archive = folder.join("libtrail.a");
    let name = archive.display();
    assert!(archive.exists(), "{name} is missing: `make target/staticlib/libtrail.a`");
    println!("cargo:rerun-if-changed={name}");
    println!("cargo:rustc-link-search=native={}", folder.display());
    println!("cargo:rustc-link-lib=static=trail");
}
