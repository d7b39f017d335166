//! Links libhost.a, which `rt lib` in crates/host writes: from the folder that RAUDOKIIN_LIB names, else from the repository's crates/host/out.
use std::path::PathBuf;

fn main() {
    println!("cargo:rerun-if-env-changed=RAUDOKIIN_LIB");
    let folder = match std::env::var_os("RAUDOKIIN_LIB") {
        Some(folder) => PathBuf::from(folder),
        None => PathBuf::from(env!("CARGO_MANIFEST_DIR")).join("../../crates/host/out"),
    };
    let library = folder.join("libhost.a");
    println!("cargo:rerun-if-changed={}", library.display());
    if !library.exists() {
        panic!("{} is missing: run `rt lib` in crates/host, or name its folder in RAUDOKIIN_LIB", library.display());
    }
    println!("cargo:rustc-link-search=native={}", folder.display());
    println!("cargo:rustc-link-lib=static=host");
}
