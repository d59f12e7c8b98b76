//! Links the archive that tools/archive writes, or the one in the directory that KRUZHVELA_ARCHIVE names.
use std::env;
use std::path::PathBuf;

fn main() {
    println!("cargo:rerun-if-env-changed=KRUZHVELA_ARCHIVE");
    let directory = match env::var_os("KRUZHVELA_ARCHIVE") {
        Some(directory) => PathBuf::from(directory),
        None => PathBuf::from(env!("CARGO_MANIFEST_DIR")).join("../../target/native"),
    };
    let archive = directory.join("libkruzhvela.a");
    if !archive.is_file() {
        panic!("{} is missing: `bash tools/archive` writes it", archive.display());
    }
    println!("cargo:rerun-if-changed={}", archive.display());
    println!("cargo:rustc-link-search=native={}", directory.display());
    println!("cargo:rustc-link-lib=static=kruzhvela");
}
