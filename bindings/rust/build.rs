// SPDX-License-Identifier: BSD-3-Clause
//! Finds the static library libwarpthistle.a and has cargo link it. Where it looks, in this order:
//!
//! 1. the environment variable WARPTHISTLE_LIBRARY, the path of the archive;
//! 2. the environment variable WARPTHISTLE_LIB_DIR, the folder that has it;
//! 3. pkg-config, as `./library --prefix DIR` installs a file for it;
//! 4. what `./library` built in the repository that this crate stands in.
//!
//! It builds and fetches nothing. Where there is no archive, it says what is missing and what to run.
use std::env;
use std::path::{Path, PathBuf};
use std::process::{exit, Command};

/// The archive's name, by which the linker finds it.
const ARCHIVE: &str = "libwarpthistle.a";

fn main() {
    for name in
        ["WARPTHISTLE_LIBRARY", "WARPTHISTLE_LIB_DIR", "PKG_CONFIG", "PKG_CONFIG_PATH", "PKG_CONFIG_LIBDIR", "PKG_CONFIG_ALLOW_CROSS"]
    {
        println!("cargo:rerun-if-env-changed={name}");
    }
    // where a variable names the library, nothing else will do
    let found = by_variable("WARPTHISTLE_LIBRARY", "")
        .or_else(|| by_variable("WARPTHISTLE_LIB_DIR", ARCHIVE))
        .unwrap_or_else(|| by_pkg_config().or_else(|why| in_repository().map_err(|also| missing(&[&why, &also]))));
    match found.and_then(|archive| linked(&archive)) {
        Ok(()) => {}
        Err(why) => {
            eprintln!("{why}");
            exit(1);
        }
    }
}

/// The archive that a variable names, if it is set: its value, and in that folder the name where there is one.
fn by_variable(variable: &str, name: &str) -> Option<Result<PathBuf, String>> {
    let value = env::var_os(variable).filter(|value| !value.is_empty())?;
    let path = if name.is_empty() { PathBuf::from(value) } else { PathBuf::from(value).join(name) };
    Some(if path.is_file() {
        Ok(path)
    } else {
        Err(format!(
            "warpthistle: {variable} is set, but there is no file {}.\n\
             Run ./library in the repository of Warpthistle: it prints the path of the archive.\n\
             A relative path counts from the folder of this crate.",
            path.display()
        ))
    })
}

/// The archive that pkg-config knows, of a version that this crate can work with.
fn by_pkg_config() -> Result<PathBuf, String> {
    if env::var("HOST") != env::var("TARGET") && env::var_os("PKG_CONFIG_ALLOW_CROSS").is_none() {
        return Err("pkg-config: not asked, as this is a build for another machine (PKG_CONFIG_ALLOW_CROSS=1 has it asked)".into());
    }
    let program = env::var_os("PKG_CONFIG").unwrap_or_else(|| "pkg-config".into());
    let output = Command::new(&program)
        .args(["--variable=libdir", "warpthistle"])
        .output()
        .map_err(|error| format!("pkg-config: {} cannot be run: {error}", program.to_string_lossy()))?;
    if !output.status.success() {
        return Err("pkg-config: it knows no package warpthistle (PKG_CONFIG_PATH adds a folder with a file warpthistle.pc)".into());
    }
    let (this, next) = versions();
    if !Command::new(&program).args(["--exists", &this, &next]).status().is_ok_and(|status| status.success()) {
        return Err(format!("pkg-config: the warpthistle that it knows is of another version, and this crate wants {this}, {next}"));
    }
    let archive = Path::new(&unescaped(&String::from_utf8_lossy(&output.stdout))).join(ARCHIVE);
    if archive.is_file() {
        Ok(archive)
    } else {
        Err(format!("pkg-config: there is no file {}", archive.display()))
    }
}

/// From which version on, and below which, a library is as this crate expects it. Below 1.0 a minor version may change anything.
fn versions() -> (String, String) {
    let part = |name: &str| env::var(name).ok().and_then(|text| text.parse::<u32>().ok()).unwrap_or(0);
    let (major, minor) = (part("CARGO_PKG_VERSION_MAJOR"), part("CARGO_PKG_VERSION_MINOR"));
    (format!("warpthistle >= {major}.{minor}.0"), format!("warpthistle < {major}.{}.0", minor + 1))
}

/// A path as pkg-config prints it, without the backslashes before blanks.
fn unescaped(text: &str) -> String {
    let mut path = String::new();
    let mut letters = text.trim().chars();
    while let Some(letter) = letters.next() {
        path.push(if letter == '\\' { letters.next().unwrap_or(letter) } else { letter });
    }
    path
}

/// The archive that `./library` built in the repository: for x86-64 of the kit's own objects, for other machines of its modules.
fn in_repository() -> Result<PathBuf, String> {
    let here = PathBuf::from(env::var_os("CARGO_MANIFEST_DIR").unwrap_or_default());
    let mut archive = here.join("../../target/staticlib");
    if env::var("CARGO_CFG_TARGET_ARCH").as_deref() != Ok("x86_64") {
        archive.push("kept");
    }
    archive.push(ARCHIVE);
    println!("cargo:rerun-if-changed={}", archive.display());
    archive.canonicalize().map_err(|_| format!("the repository: there is no file {}", archive.display()))
}

/// What is said where no archive is found.
fn missing(looked: &[&str]) -> String {
    format!(
        "warpthistle: the static library {ARCHIVE} is not found.\n\
         - WARPTHISTLE_LIBRARY, the path of the archive: not set\n\
         - WARPTHISTLE_LIB_DIR, the folder of the archive: not set\n\
         - {}\n\
         Run ./library in the repository of Warpthistle, which proves and builds it and wants the Rattle kit; then build again.\n\
         Or set WARPTHISTLE_LIBRARY to the path of an archive that was built before.",
        looked.join("\n- ")
    )
}

/// Has cargo link the archive, and build again when it changes.
fn linked(archive: &Path) -> Result<(), String> {
    let parts = || {
        let name = archive.file_name()?.to_str()?.strip_prefix("lib")?.strip_suffix(".a")?;
        Some((archive.canonicalize().ok()?.parent()?.to_str()?.to_owned(), name))
    };
    let (folder, name) = parts().ok_or_else(|| format!("warpthistle: {} is not called lib*.a", archive.display()))?;
    println!("cargo:rerun-if-changed={}", archive.display());
    println!("cargo:rustc-link-search=native={folder}");
    println!("cargo:rustc-link-lib=static={name}");
    Ok(())
}
