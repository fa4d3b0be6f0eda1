//! Links the port's static library, whose path the environment variable PORT gives.
use std::path::Path;

/// Tells cargo where the library is, and to look again when it changes.
fn main() {
    println!("cargo:rerun-if-env-changed=PORT");
    let library = std::env::var("PORT").expect("set PORT to the path of the port's static library, libNAME.a");
    let (folder, name) = split(Path::new(&library)).unwrap_or_else(|| panic!("PORT is not the path of a file libNAME.a: {library}"));
    println!("cargo:rerun-if-changed={library}");
    println!("cargo:rustc-link-search=native={folder}");
    println!("cargo:rustc-link-lib=static:-bundle={name}");
}

/// The folder of an existing static library, and its name as a linker wants it.
fn split(library: &Path) -> Option<(&str, &str)> {
    let name = library.file_name()?.to_str()?.strip_prefix("lib")?.strip_suffix(".a")?;
    library.is_file().then_some((library.parent()?.to_str()?, name))
}
