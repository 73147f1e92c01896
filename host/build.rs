//! Links the static library of the C functions, which `tools/staticlib c_api` writes to `target/staticlib`.
//! `RIZHAVEL_LIB` names another folder.

use std::env;
use std::path::PathBuf;

fn main() {
    let folder = match env::var_os("RIZHAVEL_LIB") {
        Some(folder) => PathBuf::from(folder),
        None => PathBuf::from(env::var_os("CARGO_MANIFEST_DIR").unwrap()).join("../target/staticlib"),
    };
    println!("cargo:rustc-link-search=native={}", folder.display());
    println!("cargo:rustc-link-lib=static=c_api");
    println!("cargo:rerun-if-changed={}", folder.join("libc_api.a").display());
    println!("cargo:rerun-if-env-changed=RIZHAVEL_LIB");
}
