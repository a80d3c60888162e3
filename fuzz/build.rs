//! Links the archive of the proved library. PLANKSLING_LIBRARY tells its folder; without it the folder is `target/library` of the repository.

use std::path::PathBuf;

fn main() {
    println!("cargo:rerun-if-env-changed=PLANKSLING_LIBRARY");
    println!("cargo:rerun-if-changed=build.rs");
    let package = PathBuf::from(std::env::var_os("CARGO_MANIFEST_DIR").expect("cargo tells the package's folder"));
    let told = std::env::var_os("PLANKSLING_LIBRARY").filter(|folder| !folder.is_empty());
    let folder = package.join(told.unwrap_or_else(|| "../target/library".into()));
    let archive = folder.join("libplanksling.a");
    println!("cargo:rerun-if-changed={}", archive.display());
    if !archive.is_file() {
        eprintln!("There is no {}: tools/archive makes it.", archive.display());
        std::process::exit(1);
    }
    println!("cargo:rustc-link-search=native={}", folder.display());
    println!("cargo:rustc-link-lib=static=planksling");
}
