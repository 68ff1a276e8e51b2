//! Finds the proved archive and links it. Cargo looks at it anew whenever it changes.
use std::env;
use std::path::PathBuf;
use std::process::exit;

fn main() {
    println!("cargo:rerun-if-env-changed=CDF_LIB_DIR");
    let folder = match env::var_os("CDF_LIB_DIR") {
        Some(folder) => PathBuf::from(folder),
        None => PathBuf::from(env::var_os("CARGO_MANIFEST_DIR").unwrap_or_default()).join("../../target"),
    };
    let archive = folder.join("libcdf.a");
    println!("cargo:rerun-if-changed={}", archive.display());
    if !archive.is_file() {
        eprintln!(
            "cdf: there is no {}: make it with ./library at the top of the repository, or set CDF_LIB_DIR to the folder that has libcdf.a",
            archive.display()
        );
        exit(1);
    }
    println!("cargo:rustc-link-search=native={}", folder.display());
    println!("cargo:rustc-link-lib=static=cdf");
}
