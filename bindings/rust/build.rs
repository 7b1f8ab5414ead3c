//! Links the static library: the one that RECKONBOUGH_LIB names, or target/host/libreckonbough.a of the repository.

use std::path::PathBuf;

fn main() {
    println!("cargo:rerun-if-env-changed=RECKONBOUGH_LIB");
    let library = match std::env::var_os("RECKONBOUGH_LIB") {
        Some(path) => PathBuf::from(path),
        None => PathBuf::from(std::env::var_os("CARGO_MANIFEST_DIR").expect("cargo names the crate's folder"))
            .join("../../target/host/libreckonbough.a"),
    };
    let named = library.file_name().map_or(false, |name| name == "libreckonbough.a");
    if !named || !library.is_file() {
        eprintln!("there is no libreckonbough.a at {}", library.display());
        eprintln!("make it by tools/host-library, or name its path, absolute, by RECKONBOUGH_LIB");
        std::process::exit(1);
    }
    let folder = library.parent().expect("a file lies in a folder");
    println!("cargo:rerun-if-changed={}", library.display());
    println!("cargo:rustc-link-search=native={}", folder.display());
    println!("cargo:rustc-link-lib=static=reckonbough");
}
