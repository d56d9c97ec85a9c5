//! Links the archive of the proved library, libcapi.a: from the folder that TASHVELUN_ARCHIVE names, or else from crates/capi/out of the
//! repository.
use std::path::PathBuf;

fn main() {
    println!("cargo:rerun-if-env-changed=TASHVELUN_ARCHIVE");
    let target = std::env::var("TARGET").unwrap();
    let folder = match std::env::var_os("TASHVELUN_ARCHIVE") {
        Some(folder) => PathBuf::from(folder),
        None => PathBuf::from(std::env::var_os("CARGO_MANIFEST_DIR").unwrap()).join("../crates/capi/out"),
    };
    let archive = folder.join("libcapi.a");
    println!("cargo:rerun-if-changed={}", archive.display());
    if !archive.is_file() {
        eprintln!("There is no {}.", archive.display());
        eprintln!("Run `rt lib --cpu x86-64` in crates/capi: it proves the library and writes crates/capi/out/libcapi.a.");
        eprintln!("If the archive stands elsewhere, name its folder: TASHVELUN_ARCHIVE=FOLDER cargo build");
        std::process::exit(1);
    }
    if !target.starts_with("x86_64") && std::env::var_os("TASHVELUN_ARCHIVE").is_none() {
        println!("cargo:warning=`rt lib` writes an archive for x86-64; this build is for {target}");
    }
    println!("cargo:rustc-link-search=native={}", folder.display());
    println!("cargo:rustc-link-lib=static=capi");
}
