//! Links libtack.a, which `rt lib` builds in crates/tack.

use std::path::PathBuf;

fn main() {
    println!("cargo:rerun-if-env-changed=TACK_LIBRARY_DIR");
    let folder = match std::env::var_os("TACK_LIBRARY_DIR") {
        Some(folder) => PathBuf::from(folder),
        None => PathBuf::from(env!("CARGO_MANIFEST_DIR")).join("../../crates/tack/out"),
    };
    let library = folder.join("libtack.a");
    println!("cargo:rerun-if-changed={}", library.display());
    if !library.exists() {
        eprintln!(
            "There is no {}: run `rt lib` in crates/tack first, or name its folder in TACK_LIBRARY_DIR.",
            library.display()
        );
        std::process::exit(1);
    }
    println!("cargo:rustc-link-search=native={}", folder.display());
    println!("cargo:rustc-link-lib=static=tack");
}
