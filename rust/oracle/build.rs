//! Writes the part of the crate root that names pdb's files, wherever they lie: none of them is
//! copied into the repository. With the feature `fields`, omap.rs and framedata.rs are read from
//! copies that have one child module more at their end.

use std::path::{Path, PathBuf};
use std::{env, fs};

const ROOT: [(&str, &str); 7] = [
    ("common", "common.rs"),
    ("source", "source.rs"),
    ("msf", "msf/mod.rs"),
    ("tpi", "tpi/constants.rs"),
    ("pe", "pe.rs"),
    ("omap", "omap.rs"),
    ("framedata", "framedata.rs"),
];

fn main() {
    println!("cargo:rerun-if-env-changed=PDB_SRC");
    let here = PathBuf::from(env::var("CARGO_MANIFEST_DIR").unwrap());
    let source = match env::var("PDB_SRC") {
        Ok(folder) => PathBuf::from(folder),
        Err(_) => here.join("../../../shared/docs/src"),
    };
    // The folder may be the crate's own or its src.
    let source = match source.join("src") {
        inner if inner.join("omap.rs").exists() => inner,
        _ => source,
    };
    let source = source.canonicalize().unwrap_or_else(|e| {
        panic!(
            "pdb's source, {}: {} (PDB_SRC names it)",
            source.display(),
            e
        )
    });

    let fields = here.join("../oracle/src/fields");
    let out = PathBuf::from(env::var("OUT_DIR").unwrap());
    let mut root = String::new();
    for (name, file) in ROOT {
        let mut path = source.join(file);
        println!("cargo:rerun-if-changed={}", path.display());
        let child = fields.join(file);
        if env::var("CARGO_FEATURE_FIELDS").is_ok() && child.exists() {
            println!("cargo:rerun-if-changed={}", child.display());
            path = append(&path, &child, &out.join(file));
        }
        let item = format!("#[path = {:?}]\npub(crate) mod", path);
        root += &match name {
            "tpi" => format!("mod tpi {{\n{} constants;\n}}\n", item),
            _ => format!("{} {};\n", item, name),
        };
    }
    fs::write(out.join("root.rs"), root).unwrap();
}

fn append(file: &Path, child: &Path, to: &Path) -> PathBuf {
    let text = fs::read_to_string(file).unwrap();
    let more = fs::read_to_string(child).unwrap();
    fs::write(to, format!("{text}\npub(crate) mod fields {{\n{more}}}\n")).unwrap();
    to.to_path_buf()
}
