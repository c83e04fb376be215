//! Links the archive that `face/archive` writes. `UYAVSKER_LIB` names another folder that holds `libzones.a`.
use std::env;
use std::path::PathBuf;

fn main() {
    let beside = || {
        let here = env::var("CARGO_MANIFEST_DIR").unwrap_or_default();
        PathBuf::from(here).join("../../target/staticlib")
    };
    let folder = env::var_os("UYAVSKER_LIB").map_or_else(beside, PathBuf::from);
    println!("cargo:rustc-link-search=native={}", folder.display());
    println!("cargo:rustc-link-lib=static=zones");
    println!("cargo:rerun-if-env-changed=UYAVSKER_LIB");
    println!(
        "cargo:rerun-if-changed={}",
        folder.join("libzones.a").display()
    );
}
