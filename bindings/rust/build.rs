//! Links the library's archive, `libtrail.a`. It is looked for in the folder that `TRAIL_ARCHIVE_DIR` names, else in
//! `../../target/staticlib`, else where it is installed by what `pkg-config` says.

use std::env;
use std::path::{Path, PathBuf};
use std::process::Command;

fn main() {
    println!("cargo:rerun-if-changed=build.rs");
    println!("cargo:rerun-if-env-changed=TRAIL_ARCHIVE_DIR");
    println!("cargo:rerun-if-env-changed=PKG_CONFIG_PATH");
    let folder = archive_folder()
        .canonicalize()
        .expect("the archive stands in it");
    println!("cargo:rerun-if-changed={}", archive(&folder).display());
    println!("cargo:rustc-link-search=native={}", folder.display());
    println!("cargo:rustc-link-lib=static=trail");
}

fn archive(folder: &Path) -> PathBuf {
    folder.join("libtrail.a")
}

fn archive_folder() -> PathBuf {
    if let Some(named) = env::var_os("TRAIL_ARCHIVE_DIR") {
        let named = PathBuf::from(named);
        assert!(
            archive(&named).exists(),
            "TRAIL_ARCHIVE_DIR names {}, where there is no libtrail.a: `make target/staticlib/libtrail.a` makes it",
            named.display()
        );
        return named;
    }
    let package = env::var_os("CARGO_MANIFEST_DIR").expect("cargo names the package");
    let built = Path::new(&package).join("../../target/staticlib");
    [Some(built), installed_folder()]
        .into_iter()
        .flatten()
        .find(|folder| archive(folder).exists())
        .expect(
            "libtrail.a is missing: `make target/staticlib/libtrail.a` makes it in target/staticlib; \
             or set TRAIL_ARCHIVE_DIR to its folder, or install the library so that pkg-config finds `trail`",
        )
}

/// The folder that `pkg-config` names for the installed library.
fn installed_folder() -> Option<PathBuf> {
    let said = Command::new("pkg-config")
        .args(["--variable=libdir", "trail"])
        .output()
        .ok()?;
    let folder = String::from_utf8(said.stdout).ok()?;
    (said.status.success() && !folder.trim().is_empty()).then(|| PathBuf::from(folder.trim()))
}
