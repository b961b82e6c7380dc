//! Links the archive of the lookups. RATTLE_LIB_DIR is the absolute path of the folder that it
//! stands in.

use std::env;
use std::path::Path;

fn main() {
    println!("cargo:rerun-if-env-changed=RATTLE_LIB_DIR");
    let folder = env::var("RATTLE_LIB_DIR").expect("RATTLE_LIB_DIR is not set");
    let archive = Path::new(&folder).join("liblookup.a");
    assert!(archive.is_file(), "there is no {}", archive.display());
    println!("cargo:rerun-if-changed={}", archive.display());
    println!("cargo:rustc-link-search=native={folder}");
    println!("cargo:rustc-link-lib=static=lookup");
}
