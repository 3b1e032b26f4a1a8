//! Finds libpiongseut.a: in the folder that PIONGSEUT_LIB_DIR names, else where
//! `pkg-config` says that it was installed, else where `tools/build piongseut`
//! leaves it in the repository. Where it is in none of them, or is not for the
//! target, this ends with one line that says so.

use std::env;
use std::path::{Path, PathBuf};
use std::process::{exit, Command};

const ARCHIVE: &str = "libpiongseut.a";

fn main() {
    for name in ["PIONGSEUT_LIB_DIR", "PKG_CONFIG_PATH"] {
        println!("cargo:rerun-if-env-changed={name}");
    }
    println!("cargo:rerun-if-changed=build.rs");
    let found = for_the_target().and_then(|()| folder());
    let folder = found.unwrap_or_else(|why| {
        eprintln!("piongseut: {why}");
        exit(1)
    });
    let archive = folder.join(ARCHIVE);
    println!("cargo:rerun-if-changed={}", archive.display());
    println!("cargo:rustc-link-search=native={}", folder.display());
    println!("cargo:rustc-link-lib=static=piongseut");
}

/// The archive is code for x86-64 that is called as System V says.
fn for_the_target() -> Result<(), String> {
    let of = |part: &str| env::var(format!("CARGO_CFG_TARGET_{part}")).unwrap_or_default();
    if of("ARCH") == "x86_64" && of("OS") != "windows" && of("OS") != "uefi" {
        return Ok(());
    }
    let target = env::var("TARGET").unwrap_or_default();
    Err(format!(
        "{ARCHIVE} is for x86-64 and System V, and cannot be linked for {target}"
    ))
}

fn folder() -> Result<PathBuf, String> {
    if let Some(named) = env::var_os("PIONGSEUT_LIB_DIR") {
        return with_archive(named.into())
            .map_err(|path| format!("PIONGSEUT_LIB_DIR has no {}", path.display()));
    }
    let asked = installed().and_then(|folder| {
        with_archive(folder)
            .map_err(|path| format!("pkg-config names {}, not there", path.display()))
    });
    let why = match asked {
        Ok(folder) => return Ok(folder),
        Err(why) => why,
    };
    with_archive(built()).map_err(|path| {
        format!(
            "no {ARCHIVE}: PIONGSEUT_LIB_DIR, a folder, is not set; {why}; and there is no {}",
            path.display()
        )
    })
}

/// Where `pkg-config` says that it was installed.
fn installed() -> Result<PathBuf, String> {
    let asked = Command::new("pkg-config")
        .args(["--variable=libdir", "piongseut"])
        .output();
    let said = match asked {
        Ok(said) => said,
        Err(why) => return Err(format!("pkg-config does not run ({why})")),
    };
    let folder = String::from_utf8_lossy(&said.stdout).trim().to_string();
    if said.status.success() && !folder.is_empty() {
        return Ok(folder.into());
    }
    Err("pkg-config knows of no piongseut".to_string())
}

/// Where the repository's tools/build leaves it, in the repository that this crate is part of.
fn built() -> PathBuf {
    let here = env::var_os("CARGO_MANIFEST_DIR").unwrap_or_default();
    Path::new(&here).join("../../target/staticlib")
}

/// The folder, made absolute, if the archive is in it; else the path that
/// should be there.
fn with_archive(folder: PathBuf) -> Result<PathBuf, PathBuf> {
    let archive = folder.join(ARCHIVE);
    match folder.canonicalize() {
        Ok(folder) if archive.is_file() => Ok(folder),
        _ => Err(archive),
    }
}
