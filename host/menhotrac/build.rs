//! Links the archive of the proved step, `libcapi.a`.

use std::env;
use std::path::{Path, PathBuf};

fn main() {
    let folder = match env::var_os("MENHOTRAC_LIB_DIR") {
        Some(folder) => PathBuf::from(folder),
        None => Path::new(env!("CARGO_MANIFEST_DIR")).join("../../target/staticlib"),
    };
    let archive = folder.join("libcapi.a");
    if !archive.is_file() {
        panic!(
            "{} is not there: run `tools/archive` at the root of the repository, or set MENHOTRAC_LIB_DIR to the archive's folder",
            archive.display()
        );
    }
    println!("cargo:rustc-link-search=native={}", folder.display());
    println!("cargo:rustc-link-lib=static=capi");
    println!("cargo:rerun-if-changed={}", archive.display());
    println!("cargo:rerun-if-env-changed=MENHOTRAC_LIB_DIR");
}
