//! Links the archives of the functions that are there to be timed and of the library of backups; that of the library of settings is linked by its
//! crate. PLANKSLING_LIBRARY tells the folder of all.
fn main() {
    println!("cargo:rerun-if-env-changed=PLANKSLING_LIBRARY");
    let folder = std::env::var("PLANKSLING_LIBRARY").expect("PLANKSLING_LIBRARY: the folder of libtimed.a");
    println!("cargo:rustc-link-search=native={folder}");
    for name in ["timed", "planksling_backup"] {
        println!("cargo:rerun-if-changed={folder}/lib{name}.a");
        println!("cargo:rustc-link-lib=static={name}");
    }
}
