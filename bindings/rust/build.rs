//! Links libsewarqo: an archive in the folder that SEWARQO_LIB_DIR names, or else the library that the linker
//! finds. If the archive has no heap, the crate has its own (`own_heap`).

use std::env;
use std::path::Path;

const CORE: &str = "sewarqo_core";

fn main() {
    println!("cargo:rerun-if-env-changed=SEWARQO_LIB_DIR");
    println!("cargo:rustc-check-cfg=cfg(own_heap)");
    let Ok(folder) = env::var("SEWARQO_LIB_DIR") else {
        println!("cargo:rustc-link-lib=dylib=sewarqo");
        return;
    };
    println!("cargo:rustc-link-search=native={folder}");
    let archive_of = |name: &str| format!("{folder}/lib{name}.a");
    match [CORE, "sewarqo"].into_iter().find(|name| Path::new(&archive_of(name)).exists()) {
        Some(name) => {
            println!("cargo:rerun-if-changed={}", archive_of(name));
            println!("cargo:rustc-link-lib=static={name}");
            if name == CORE {
                println!("cargo:rustc-cfg=own_heap");
            }
        }
        None => println!("cargo:rustc-link-lib=dylib=sewarqo"),
    }
}
