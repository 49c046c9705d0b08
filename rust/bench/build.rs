//! Links the inner functions that native.sh gave C names, where there are any beside the archive.

use std::path::Path;
use std::{env, fs};

fn main() {
    println!("cargo:rustc-check-cfg=cfg(inner, values(\"order\", \"search\"))");
    println!("cargo:rerun-if-env-changed=GILLACORN_LIB");
    let folder = env::var("GILLACORN_LIB").unwrap_or_default();
    let list = Path::new(&folder).join("inner");
    println!("cargo:rerun-if-changed={}", list.display());
    println!("cargo:rerun-if-changed={folder}/libinner.a");
    let Ok(names) = fs::read_to_string(list) else {
        return;
    };
    for name in names.lines() {
        println!("cargo:rustc-cfg=inner=\"{name}\"");
    }
    println!("cargo:rustc-link-search=native={folder}");
    println!("cargo:rustc-link-lib=static=inner");
}
