//! Links the static library of the proved trace call. AMSULFEZD_STATICLIB_DIR names its folder.

use std::path::Path;

fn main() {
    println!("cargo:rerun-if-env-changed=AMSULFEZD_STATICLIB_DIR");
    let folder = match std::env::var("AMSULFEZD_STATICLIB_DIR") {
        Ok(folder) => folder,
        Err(_) => panic!("AMSULFEZD_STATICLIB_DIR does not name the folder of libamsulfezd.a"),
    };
    let library = Path::new(&folder).join("libamsulfezd.a");
    if !library.is_file() {
        panic!("{} is not there", library.display());
    }
    println!("cargo:rerun-if-changed={}", library.display());
    println!("cargo:rustc-link-search=native={}", folder);
    println!("cargo:rustc-link-lib=static=amsulfezd");
}
