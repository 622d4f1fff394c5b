//! Links the proved library, `libjeghatuf.a`. It is sought in the folder that
//! `JEGHATUF_LIB_DIR` names; else where pkg-config says that it is installed; else
//! where `bash scripts/library` leaves it in this repository.

use std::env;
use std::path::{Path, PathBuf};
use std::process::{Command, exit};

const VARIABLE: &str = "JEGHATUF_LIB_DIR";
const ARCHIVE: &str = "libjeghatuf.a";

fn main() {
    for variable in [VARIABLE, "PKG_CONFIG_PATH"] {
        println!("cargo::rerun-if-env-changed={variable}");
    }
    let folder = named().or_else(installed).or_else(built);
    let Some(folder) = folder else {
        println!(
            "cargo::error=there is no {ARCHIVE}: {VARIABLE} names no folder, pkg-config knows no jeghatuf, and bash scripts/library was not run in this repository"
        );
        exit(1);
    };
    let archive = folder.join(ARCHIVE);
    if !archive.is_file() {
        println!("cargo::error=there is no {}", archive.display());
        exit(1);
    }
    println!("cargo::rerun-if-changed={}", archive.display());
    println!("cargo::rustc-link-search=native={}", folder.display());
    println!("cargo::rustc-link-lib=static=jeghatuf");
}

fn named() -> Option<PathBuf> {
    env::var_os(VARIABLE).map(PathBuf::from)
}

fn installed() -> Option<PathBuf> {
    let answer = Command::new("pkg-config")
        .args(["--variable=libdir", "jeghatuf"])
        .output()
        .ok()
        .filter(|answer| answer.status.success())?;
    // a blank in it comes with a backslash
    let folder = String::from_utf8(answer.stdout).ok()?.replace("\\ ", " ");
    Some(folder.trim_end())
        .filter(|folder| !folder.is_empty())
        .map(PathBuf::from)
}

fn built() -> Option<PathBuf> {
    let folder = Path::new(env!("CARGO_MANIFEST_DIR")).join("../../target/staticlib");
    Some(folder).filter(|folder| folder.join(ARCHIVE).is_file())
}
