//! Finds the archive of the proved library and has it linked.

use std::env;
use std::path::PathBuf;

fn main() {
    println!("cargo:rerun-if-env-changed=VGIC_LIB_DIR");
    let folder = match env::var_os("VGIC_LIB_DIR") {
        Some(folder) => PathBuf::from(folder),
        None => PathBuf::from(env::var_os("CARGO_MANIFEST_DIR").expect("cargo names the crate"))
            .join("../../target/staticlib"),
    };
    let archive = folder.join("libvgic.a");
    println!("cargo:rerun-if-changed={}", archive.display());
    assert!(
        archive.is_file(),
        "no {}: `host/run library` writes it, VGIC_LIB_DIR names another folder",
        archive.display()
    );
    println!("cargo:rustc-link-search=native={}", folder.display());
    println!("cargo:rustc-link-lib=static=vgic");
}
