//! Links the static library: that of the repository's target folder, or the one in the folder ZOMBREKI_LIB_DIR.

use std::env;
use std::path::PathBuf;

fn main() {
    let default = PathBuf::from(env!("CARGO_MANIFEST_DIR")).join("../target/staticlib");
    let folder = env::var_os("ZOMBREKI_LIB_DIR").map_or(default, PathBuf::from);
    println!("cargo::rerun-if-env-changed=ZOMBREKI_LIB_DIR");
    println!(
        "cargo::rerun-if-changed={}",
        folder.join("libzombreki.a").display()
    );
    println!("cargo::rustc-link-search=native={}", folder.display());
    println!("cargo::rustc-link-lib=static=zombreki");
}
