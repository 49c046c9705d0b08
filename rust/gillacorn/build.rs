//! Links the proved archive: the one of this repository, which is for x86-64, or the one in the
//! folder that GILLACORN_LIB names, which may be for any machine. Where it can't, it says so in a
//! sentence and stops, before the linker does in a page.

use std::env;
use std::path::PathBuf;
use std::process::exit;

fn main() {
    println!("cargo:rerun-if-env-changed=GILLACORN_LIB");
    let named = env::var_os("GILLACORN_LIB").map(PathBuf::from);
    let target = env::var("CARGO_CFG_TARGET_ARCH").unwrap_or_default();
    if named.is_none() && target != "x86_64" {
        stop(&format!(
            "the proved archive is for x86-64, and this build is for {target}: build with \
             `--target x86_64-unknown-linux-gnu`, or set GILLACORN_LIB to a folder that has a \
             libgillacorn.a for {target}"
        ));
    }
    let here = PathBuf::from(env::var_os("CARGO_MANIFEST_DIR").expect("cargo sets it"));
    let folder = named.unwrap_or_else(|| here.join("../../target/staticlib"));
    let archive = folder.join("libgillacorn.a");
    println!("cargo:rerun-if-changed={}", archive.display());
    if !archive.is_file() {
        stop(&format!(
            "there is no archive {}: make it with `./gillacorn --help` in the repository, or \
             set GILLACORN_LIB to a folder that has it",
            archive.display()
        ));
    }
    println!("cargo:rustc-link-search=native={}", folder.display());
    println!("cargo:rustc-link-lib=static=gillacorn");
}

fn stop(why: &str) -> ! {
    eprintln!("gillacorn: {why}");
    exit(1)
}
