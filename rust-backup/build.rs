//! Links the archive of the proved library of backups. PLANKSLING_LIBRARY tells its folder (a relative one is taken from this package's folder); without
//! it the folder is `target/library` of the repository.

use std::path::PathBuf;

const ARCHIVE: &str = "libplanksling_backup.a";

fn main() {
    println!("cargo:rerun-if-env-changed=PLANKSLING_LIBRARY");
    println!("cargo:rerun-if-changed=build.rs");
    let package = PathBuf::from(std::env::var_os("CARGO_MANIFEST_DIR").expect("cargo tells the package's folder"));
    let told = std::env::var_os("PLANKSLING_LIBRARY").filter(|folder| !folder.is_empty());
    let folder = package.join(told.unwrap_or_else(|| "../target/library".into()));
    let archive = folder.join(ARCHIVE);
    println!("cargo:rerun-if-changed={}", archive.display());
    if !archive.is_file() {
        eprintln!("There is no {}.", archive.display());
        eprintln!("Run `tools/archive planksling_backup` in the repository, which makes it in target/library,");
        eprintln!("or set PLANKSLING_LIBRARY to the folder that has {ARCHIVE}.");
        std::process::exit(1);
    }
    println!("cargo:rustc-link-search=native={}", folder.display());
    println!("cargo:rustc-link-lib=static=planksling_backup");
}
