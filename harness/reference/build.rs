//! Finds the reference's folder and writes the module declarations that
//! compile its files where they are.

use std::path::{Path, PathBuf};
use std::{env, fs};

/// The default of KRABKA_REF. A relative path starts at the repository root.
const DEFAULT: &str = "../shared/docs/src";

const MODULES: [&str; 8] = [
    "acl",
    "break_glass",
    "directory_id",
    "error",
    "image",
    "metadata_version",
    "records",
    "write_freeze",
];

fn main() {
    println!("cargo::rerun-if-env-changed=KRABKA_REF");
    let sources = sources();
    let files = files(&sources);
    for file in &files {
        println!("cargo::rerun-if-changed={}", file.display());
    }
    match files.iter().find(|file| !file.is_file()) {
        Some(missing) => println!(
            "cargo::error=the reference is not there: no file {}; set KRABKA_REF to the \
             folder that holds crates/metadata/src (default: {DEFAULT} from the repository root)",
            missing.display()
        ),
        None => write_modules(&sources),
    }
}

fn variable(name: &str) -> PathBuf {
    env::var_os(name).expect("cargo sets it").into()
}

/// The folder of the reference's metadata crate.
fn sources() -> PathBuf {
    let reference = env::var_os("KRABKA_REF").unwrap_or_else(|| DEFAULT.into());
    let manifest = variable("CARGO_MANIFEST_DIR");
    let root = manifest.ancestors().nth(2).expect("the crate's place");
    let folder = root.join(reference).join("crates/metadata/src");
    fs::canonicalize(&folder).unwrap_or(folder)
}

fn files(sources: &Path) -> Vec<PathBuf> {
    let mut files: Vec<PathBuf> = MODULES
        .iter()
        .map(|module| sources.join(module).with_extension("rs"))
        .collect();
    files.push(sources.join("image/acl_index.rs"));
    files
}

/// The modules stand inside one inline module whose `path` is their folder,
/// so that rustc finds `image/acl_index.rs` from `image.rs`.
fn write_modules(sources: &Path) {
    let folder = sources.to_str().expect("the reference's path is UTF-8");
    let mut text = format!("#[path = {folder:?}]\n#[allow(warnings)]\nmod reference {{\n");
    for module in MODULES {
        text += &format!("    pub mod {module};\n");
    }
    text += "}\n";
    fs::write(variable("OUT_DIR").join("modules.rs"), text).expect("OUT_DIR is writable");
}
