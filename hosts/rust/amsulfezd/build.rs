//! Links the proved static library where the environment says where it lies.
//!
//! With `AMSULFEZD_STATICLIB_DIR` set to the folder of `libamsulfezd.a` the package is built with the cfg `linked` and has
//! the call; without it the package still reads and writes traces and answers.

use std::path::Path;

fn main() {
    println!("cargo:rerun-if-changed=build.rs");
    println!("cargo:rerun-if-env-changed=AMSULFEZD_STATICLIB_DIR");
    if let Ok(folder) = std::env::var("AMSULFEZD_STATICLIB_DIR") {
        let library = Path::new(&folder).join("libamsulfezd.a");
        assert!(
            library.is_file(),
            "AMSULFEZD_STATICLIB_DIR holds no libamsulfezd.a: 'make replay' proves it and writes target/staticlib"
        );
        let processor = std::env::var("CARGO_CFG_TARGET_ARCH").unwrap_or_default();
        assert!(
            processor == "x86_64",
            "libamsulfezd.a is for x86-64, and this build is for {}",
            processor
        );
        println!("cargo:rerun-if-changed={}", library.display());
        println!("cargo:rustc-link-search=native={}", folder);
        println!("cargo:rustc-link-lib=static=amsulfezd");
        println!("cargo:rustc-cfg=linked");
    }
}
