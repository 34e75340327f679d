//! Links the proved library, which `make lib` builds. Tests of the model that are asked of the library know it by
//! `of_the_library`.

const ARCHIVE_FOLDER: &str = "../../target/staticlib";

fn main() {
    let here = std::env::var("CARGO_MANIFEST_DIR").expect("cargo sets it");
    println!("cargo:rustc-link-search=native={here}/{ARCHIVE_FOLDER}");
    println!("cargo:rustc-link-lib=static=gelmuszta");
    println!("cargo:rerun-if-changed={here}/{ARCHIVE_FOLDER}/libgelmuszta.a");
    println!("cargo:rustc-cfg=of_the_library");
    println!("cargo:rustc-check-cfg=cfg(of_the_library)");
}
