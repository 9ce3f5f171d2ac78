//! Links the archive: the one that `SANDBOX_LIB_DIR` has, where that is set; else the one that the packed crate brings in `native`;
//! else, in a checkout, the one that `examples/hosts/library` puts in place.
use std::env::var_os;
use std::path::{Path, PathBuf};
use std::process::Command;

fn archive_folder() -> PathBuf {
    let here = Path::new(env!("CARGO_MANIFEST_DIR"));
    if let Some(folder) = var_os("SANDBOX_LIB_DIR") {
        return folder.into();
    }
    if here.join("native/libsandbox.a").exists() {
        return here.join("native");
    }
    let top = here.join("../../..");
    let made = Command::new(top.join("examples/hosts/library")).status().expect("examples/hosts/library runs");
    assert!(made.success(), "the archive can't be made");
    top.join("out")
}

fn main() {
    let folder = archive_folder();
    println!("cargo:rerun-if-env-changed=SANDBOX_LIB_DIR");
    println!("cargo:rerun-if-changed={}", folder.join("libsandbox.a").display());
    println!("cargo:rustc-link-search=native={}", folder.display());
    println!("cargo:rustc-link-lib=static=sandbox");
}
