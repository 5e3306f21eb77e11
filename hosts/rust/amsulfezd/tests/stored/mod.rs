//! The stored traces, for the tests of this workspace.

use std::path::{Path, PathBuf};

/// The folder of the stored traces.
pub fn traces() -> PathBuf {
    Path::new(env!("CARGO_MANIFEST_DIR")).join("../../../traces")
}

/// Every file below a folder with this ending.
pub fn files(folder: &Path, ending: &str) -> Vec<PathBuf> {
    let mut found = Vec::new();
    for entry in std::fs::read_dir(folder).expect("the folder of traces") {
        let path = entry.expect("an entry of the folder").path();
        if path.is_dir() {
            found.extend(files(&path, ending));
        } else if path.extension().map_or(false, |there| there == ending) {
            found.push(path);
        }
    }
    found.sort();
    found
}
