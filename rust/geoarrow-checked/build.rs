//! Finds the archive that bin/native builds, the library with its heap: in the folder that GEOARROW_C_LIB_DIR names, or in build/ of the repository.
use std::path::PathBuf;
use std::{env, process};

fn main() {
    println!("cargo:rerun-if-env-changed=GEOARROW_C_LIB_DIR");
    let folder = match env::var_os("GEOARROW_C_LIB_DIR") {
        Some(folder) => PathBuf::from(folder),
        None => PathBuf::from(env!("CARGO_MANIFEST_DIR")).join("../../build"),
    };
    let archive = folder.join("libgeoarrow_c.a");
    if !archive.is_file() {
        eprintln!(
            "{} is not there: bin/native builds it, and GEOARROW_C_LIB_DIR may name its folder",
            archive.display()
        );
        process::exit(1);
    }
    println!("cargo:rerun-if-changed={}", archive.display());
    println!("cargo:rustc-link-search=native={}", folder.display());
    println!("cargo:rustc-link-lib=static=geoarrow_c");
}
