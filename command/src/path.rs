//! Paths: for people, in JSON, and the folders that they lie in.

use crate::show;
use serde_json::{json, Value};
use std::os::unix::ffi::OsStrExt;
use std::path::Path;

/// A path for people.
pub fn shown(path: &Path) -> String {
    show::name(path.as_os_str().as_bytes())
}

/// A path in JSON: a member `file` if it is UTF-8, else `file_hex`.
pub fn json_member(path: &Path) -> (&'static str, String) {
    match path.to_str() {
        Some(text) => ("file", text.to_string()),
        None => ("file_hex", show::hex(path.as_os_str().as_bytes())),
    }
}

/// An object in JSON with a path added to it.
pub fn with_file(path: &Path, mut object: Value) -> Value {
    let (key, value) = json_member(path);
    object[key] = json!(value);
    object
}

/// The folder that a path lies in.
pub fn folder_of(path: &Path) -> &Path {
    match path.parent() {
        Some(folder) if !folder.as_os_str().is_empty() => folder,
        _ => Path::new("."),
    }
}
