//! Links the archive that `face/archive` writes.
fn main() {
    let here = std::env::var("CARGO_MANIFEST_DIR").expect("a folder");
    println!("cargo:rustc-link-search=native={here}/../target/staticlib");
    println!("cargo:rustc-link-lib=static=zones");
    println!("cargo:rerun-if-changed={here}/../target/staticlib/libzones.a");
}
