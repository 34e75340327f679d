//! Links the proved libraries `measured` and `gelmuszta`, which `make bench` builds.

fn main() {
    let root = std::env::var("CARGO_MANIFEST_DIR").expect("cargo sets it");
    println!("cargo:rustc-link-search=native={root}/../target/staticlib");
    for name in ["measured", "gelmuszta"] {
        println!("cargo:rustc-link-lib=static={name}");
        println!("cargo:rerun-if-changed={root}/../target/staticlib/lib{name}.a");
    }
}
