//! Links the archive that `tools/build desk_c` writes; DESK_LIB_DIR names another folder.

use std::path::PathBuf;
use std::process::exit;

fn archive_folder() -> PathBuf {
    match std::env::var_os("DESK_LIB_DIR") {
        Some(folder) => PathBuf::from(folder),
        None => PathBuf::from(env!("CARGO_MANIFEST_DIR")).join("../../target/staticlib"),
    }
}

fn main() {
    let folder = archive_folder();
    let archive = folder.join("libdesk.a");
    println!("cargo:rerun-if-env-changed=DESK_LIB_DIR");
    println!("cargo:rerun-if-changed={}", archive.display());
    if !archive.is_file() {
        eprintln!(
            "{} is missing: run tools/build desk_c first",
            archive.display()
        );
        exit(1);
    }
    println!("cargo:rustc-link-search=native={}", folder.display());
    println!("cargo:rustc-link-lib=static=desk");
}
