//! Finds libnuggetbay.a: in NUGGETBAY_LIB_DIR, else where `make` puts what is proved, else where `make install` puts it.
use std::env;
use std::path::PathBuf;

fn folder_of_archive() -> PathBuf {
    if let Some(folder) = env::var_os("NUGGETBAY_LIB_DIR") {
        return PathBuf::from(folder);
    }
    let package = PathBuf::from(env::var_os("CARGO_MANIFEST_DIR").expect("cargo sets CARGO_MANIFEST_DIR"));
    let built = package.join("../../target/staticlib");
    let installed = package.join("../../../lib");
    if built.join("libnuggetbay.a").exists() {
        built
    } else {
        installed
    }
}

fn main() {
    println!("cargo:rerun-if-env-changed=NUGGETBAY_LIB_DIR");
    let folder = folder_of_archive();
    let archive = folder.join("libnuggetbay.a");
    if !archive.exists() {
        panic!("libnuggetbay.a isn't there: run `make`, or set NUGGETBAY_LIB_DIR to its folder");
    }
    println!("cargo:rerun-if-changed={}", archive.display());
    println!("cargo:rustc-link-search=native={}", folder.display());
    println!("cargo:rustc-link-lib=static=nuggetbay");
}
