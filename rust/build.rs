// Links the archive of the proved library.
use std::path::PathBuf;
use std::{env, process};

const FOLDER: &str = "UNWADEGIRO_ARCHIVE_DIR";
const ARCHIVE: &str = "libunwadegiro.a";

fn main() {
    println!("cargo:rerun-if-changed=build.rs");
    println!("cargo:rerun-if-env-changed={FOLDER}");
    let folder = match env::var_os(FOLDER) {
        Some(folder) => PathBuf::from(folder),
        None => PathBuf::from(env::var_os("CARGO_MANIFEST_DIR").unwrap()).join("../target/boundary"),
    };
    let archive = folder.join(ARCHIVE);
    println!("cargo:rerun-if-changed={}", archive.display());
    if !archive.is_file() {
        eprintln!("The archive of the proved library is missing: {}", archive.display());
        eprintln!("Run ./archive at the root of the repository; it makes target/boundary/{ARCHIVE}.");
        eprintln!("Where the archive lies elsewhere, {FOLDER} names its folder.");
        process::exit(1);
    }
    println!("cargo:rustc-link-search=native={}", folder.display());
    println!("cargo:rustc-link-lib=static=unwadegiro");
}
