//! With the feature `port`: links the static library that RECKONBOUGH_LIB names.

use std::path::Path;

fn main() {
    println!("cargo:rerun-if-env-changed=RECKONBOUGH_LIB");
    if std::env::var_os("CARGO_FEATURE_PORT").is_none() {
        return;
    }
    let library = std::env::var("RECKONBOUGH_LIB").expect("RECKONBOUGH_LIB names libreckonbough.a");
    let folder = Path::new(&library).parent().expect("the library lies in a folder");
    println!("cargo:rerun-if-changed={library}");
    println!("cargo:rustc-link-search=native={}", folder.display());
    println!("cargo:rustc-link-lib=static=reckonbough");
}
