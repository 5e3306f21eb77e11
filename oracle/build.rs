//! Puts document 01's helpers and document 02's PassiveIdle into the published `active.rs` by exact text matches, each found
//! once.

#[path = "build/replacements.rs"]
mod replacements;

use std::path::Path;

fn main() {
    for file in ["build.rs", "build/replacements.rs", "build/passive.rs", "build/watch.rs", "published/active.rs"] {
        println!("cargo:rerun-if-changed={}", file);
    }
    let published_helpers = std::env::var_os("CARGO_FEATURE_PUBLISHED_HELPERS").is_some();
    let published = std::fs::read_to_string("published/active.rs").expect("published/active.rs can be read");
    let text = match replacements::station_text(&published, published_helpers) {
        Ok(text) => text,
        Err(said) => panic!("{}", said),
    };
    let out = std::env::var_os("OUT_DIR").expect("cargo names a folder");
    let write = |name: &str, text: &str| {
        std::fs::write(Path::new(&out).join(name), text).expect("the folder can be written");
    };
    write("active.rs", &text);
    // a module of its own file, since the published text starts with attributes of its module
    write("station.rs", "#[path = \"active.rs\"]\nmod active;\n");
}
