//! Links the proved library, which `make lib` builds.

const ARCHIVE_FOLDER: &str = "../../target/staticlib";

fn main() {
    let here = std::env::var("CARGO_MANIFEST_DIR").expect("cargo sets it");
    println!("cargo:rustc-link-search=native={here}/{ARCHIVE_FOLDER}");
    println!("cargo:rustc-link-lib=static=gelmuszta");
    println!("cargo:rerun-if-changed={here}/{ARCHIVE_FOLDER}/libgelmuszta.a");
}
