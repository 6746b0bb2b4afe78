//! Links `libkimorefo.so`: the one in the folder of `KIMOREFO_LIB`, or else the one that the linker finds.

use std::env;
use std::path::Path;

fn main() {
    println!("cargo:rerun-if-env-changed=KIMOREFO_LIB");
    println!("cargo:rustc-link-lib=dylib=kimorefo");
    let library = env::var_os("KIMOREFO_LIB").unwrap_or_default();
    if let Some(folder) = Path::new(&library).parent() {
        println!("cargo:rustc-link-search=native={}", folder.display());
        println!("cargo:rustc-link-arg=-Wl,-rpath,{}", folder.display());
    }
}
