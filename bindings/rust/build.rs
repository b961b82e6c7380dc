//! Links the proved archive from the folder that RATTLE_LIB_DIR names. Where it is unset, the
//! repository's make has `rt` prove the crates and build the archive.

use std::env;
use std::path::{Path, PathBuf};
use std::process::Command;

/// As the repository's make calls it, and as it is installed.
const NAMES: [&str; 2] = ["capi", "sindhopul"];

fn main() {
    println!("cargo:rerun-if-env-changed=RATTLE_LIB_DIR");
    let folder = env::var_os("RATTLE_LIB_DIR").map_or_else(make, PathBuf::from);
    let archive = |name: &&str| folder.join(format!("lib{name}.a"));
    let Some(name) = NAMES.iter().find(|name| archive(name).is_file()) else {
        panic!(
            "there is neither libcapi.a nor libsindhopul.a in {}",
            folder.display()
        );
    };
    println!("cargo:rerun-if-changed={}", archive(name).display());
    println!("cargo:rustc-link-search=native={}", folder.display());
    println!("cargo:rustc-link-lib=static={name}");
}

/// Has the archive made, and tells the folder that it stands in.
fn make() -> PathBuf {
    let root = Path::new(env!("CARGO_MANIFEST_DIR")).join("../..");
    println!("cargo:rerun-if-changed={}", root.join("crates").display());
    let status = Command::new("make")
        .arg("build/archives/libcapi.a")
        .current_dir(&root)
        .status()
        .expect("make is needed to have the archive built; else set RATTLE_LIB_DIR");
    assert!(status.success(), "make build/archives/libcapi.a: {status}");
    root.join("build/archives")
}
