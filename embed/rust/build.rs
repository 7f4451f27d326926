//! Finds the static libraries that `embed/build` makes, and what they take their memory by.
//!
//! `EMBED_ARCHIVES` names their folder; without it, it is `embed/out`.

use std::env;
use std::path::PathBuf;

fn main() {
    println!("cargo:rerun-if-env-changed=EMBED_ARCHIVES");
    let folder = match env::var_os("EMBED_ARCHIVES") {
        Some(folder) => PathBuf::from(folder),
        None => PathBuf::from(env!("CARGO_MANIFEST_DIR")).join("../out"),
    };
    for name in ["slot_map_c", "ord_map_c", "route_book_c", "heap"] {
        let archive = folder.join(format!("lib{name}.a"));
        println!("cargo:rerun-if-changed={}", archive.display());
        if !archive.is_file() {
            panic!(
                "there is no {}: run embed/build, which proves and builds it, or embed/build \
                 --quick, which builds it without proof; or name its folder in EMBED_ARCHIVES",
                archive.display()
            );
        }
        println!("cargo:rustc-link-lib=static={name}");
    }
    println!("cargo:rustc-link-search=native={}", folder.display());
}
