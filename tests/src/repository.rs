//! The texts of this repository, for the tests that read its pages, headers and sources.

use std::collections::BTreeMap;
use std::fs;
use std::path::{Path, PathBuf};

pub fn root() -> PathBuf {
    Path::new(env!("CARGO_MANIFEST_DIR")).join("..")
}

/// A text by its path from the repository's root on.
pub fn read(path: impl AsRef<Path>) -> String {
    let path = root().join(path);
    fs::read_to_string(&path).unwrap_or_else(|error| panic!("{}: {error}", path.display()))
}

/// The texts below a folder, by path from the repository's root on.
pub fn texts(folder: &str) -> BTreeMap<String, String> {
    let entries = fs::read_dir(root().join(folder)).into_iter().flatten();
    let names = entries.map(|entry| entry.expect("an entry").file_name().into_string().expect("a name"));
    let mut found = BTreeMap::new();
    for path in names.map(|name| format!("{folder}/{name}")) {
        if root().join(&path).is_dir() {
            found.extend(texts(&path));
        } else {
            found.insert(path.clone(), read(&path));
        }
    }
    found
}

/// The texts of all crates in one of their folders, by path below crates/.
pub fn crate_texts(folder: &str) -> BTreeMap<String, String> {
    let crates = fs::read_dir(root().join("crates")).expect("the folder of the crates");
    let names = crates.map(|entry| entry.expect("an entry").file_name().into_string().expect("a name"));
    let found = names.flat_map(|name| texts(&format!("crates/{name}/{folder}")));
    found.map(|(path, text)| (path["crates/".len()..].to_string(), text)).collect()
}
