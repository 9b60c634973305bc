//! Links the proved archive, `libvutaroi.a`: that of the folder `VUTAROI_LIB_DIR`; else that which
//! `tools/build vutaroi` writes; else, where this crate was installed, that which was installed with it.

use std::env;
use std::path::PathBuf;

/// From this crate: in the repository, and below a prefix.
const FOLDERS: [&str; 2] = ["../../target/staticlib", "../../../lib"];

fn main() {
    println!("cargo:rerun-if-env-changed=VUTAROI_LIB_DIR");
    let folder = match env::var_os("VUTAROI_LIB_DIR") {
        Some(folder) => PathBuf::from(folder),
        None => found(),
    };
    println!("cargo:rerun-if-changed={}", folder.join("libvutaroi.a").display());
    println!("cargo:rustc-link-search=native={}", folder.display());
    println!("cargo:rustc-link-lib=static=vutaroi");
}

/// The first folder that has an archive; the first of all where none has.
fn found() -> PathBuf {
    let here =
        PathBuf::from(env::var_os("CARGO_MANIFEST_DIR").expect("cargo says where the crate is"));
    let folders = FOLDERS.map(|folder| here.join(folder));
    let has_archive = |folder: &&PathBuf| folder.join("libvutaroi.a").exists();
    folders.iter().find(has_archive).unwrap_or(&folders[0]).clone()
}
