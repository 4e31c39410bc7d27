//! Links the proved library, which tools/build puts into the repository's target folder.

use std::env;
use std::path::PathBuf;
use std::process::exit;

fn main() {
    println!("cargo:rerun-if-env-changed=CAM_LIB_DIR");
    let folder = match env::var_os("CAM_LIB_DIR") {
        Some(folder) => PathBuf::from(folder),
        None => {
            let manifest = env::var_os("CARGO_MANIFEST_DIR").expect("cargo sets it");
            PathBuf::from(manifest).join("../../target/staticlib")
        }
    };
    let archive = folder.join("libcam_abi.a");
    println!("cargo:rerun-if-changed={}", archive.display());
    if !archive.is_file() {
        eprintln!("{} is not there.", archive.display());
        eprintln!("Run `tools/build library` at the root of the repository first,");
        eprintln!("or name the folder that has libcam_abi.a in CAM_LIB_DIR.");
        exit(1);
    }
    println!("cargo:rustc-link-search=native={}", folder.display());
    println!("cargo:rustc-link-lib=static=cam_abi");
}
