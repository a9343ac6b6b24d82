//! Looks for the proved implementation's archive `libcapi.a`, in the folder
//! that NX_LIB names or in `../target/native`. Where there is one, it is
//! linked, `cfg(native)` is set and NX_ARCHIVE names it; where there is none,
//! the second program is built alone.

use std::env;
use std::path::PathBuf;

fn main() {
    println!("cargo:rerun-if-env-changed=NX_LIB");
    println!("cargo:rustc-check-cfg=cfg(native)");
    let here = PathBuf::from(env::var_os("CARGO_MANIFEST_DIR").expect("set by cargo"));
    let folder = match env::var_os("NX_LIB") {
        Some(folder) => here.join(folder),
        None => here.join("../target/native"),
    };
    // The compiler that cargo links with: the C example is compiled by it.
    let compiler = env::var("RUSTC_LINKER").unwrap_or_else(|_| "cc".into());
    println!("cargo:rustc-env=NX_CC={compiler}");
    let archive = folder.join("libcapi.a");
    println!("cargo:rerun-if-changed={}", archive.display());
    if archive.is_file() {
        println!("cargo:rustc-cfg=native");
        println!("cargo:rustc-link-search=native={}", folder.display());
        println!("cargo:rustc-link-lib=static=capi");
        println!("cargo:rustc-env=NX_ARCHIVE={}", archive.display());
    } else if env::var_os("NX_LIB").is_some() {
        println!("cargo:warning=no libcapi.a in the folder that NX_LIB names");
    }
}
