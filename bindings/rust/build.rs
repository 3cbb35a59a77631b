//! Links `libacpiset.a`: from the folder that `ACPISET_LIB_DIR` names, otherwise from the one that pkg-config prints.

use std::env::var_os;
use std::path::PathBuf;
use std::process::{exit, Command};

const LIBRARY: &str = "libacpiset.a";
const READ: [&str; 4] = [
    "ACPISET_LIB_DIR",
    "PKG_CONFIG",
    "PKG_CONFIG_PATH",
    "PKG_CONFIG_LIBDIR",
];

fn main() {
    println!("cargo:rerun-if-changed=build.rs");
    for name in READ {
        println!("cargo:rerun-if-env-changed={name}");
    }
    let folder = library_folder().unwrap_or_else(|problem| {
        eprintln!("acpiset: {problem}");
        exit(1);
    });
    let folder = folder.display();
    println!("cargo:rerun-if-changed={folder}/{LIBRARY}");
    println!("cargo:rustc-link-search=native={folder}");
    println!("cargo:rustc-link-lib=static=acpiset");
}

/// The folder of the library, or what is wrong and how to fix it.
fn library_folder() -> Result<PathBuf, String> {
    let (folder, named_by) = match var_os("ACPISET_LIB_DIR") {
        Some(folder) => (PathBuf::from(folder), "ACPISET_LIB_DIR"),
        None => (folder_of_pkg_config()?, "pkg-config"),
    };
    let name = folder.display();
    if folder.is_relative() {
        return Err(format!(
            "{named_by} names the folder {name:?}, which is no absolute path"
        ));
    }
    if !folder.join(LIBRARY).is_file() {
        return Err(format!(
            "{named_by} names the folder {name:?}, which has no {LIBRARY}"
        ));
    }
    Ok(folder)
}

fn folder_of_pkg_config() -> Result<PathBuf, String> {
    let program = var_os("PKG_CONFIG").unwrap_or_else(|| "pkg-config".into());
    let found = Command::new(&program)
        .args(["--variable=libdir", "acpiset"])
        .output();
    let problem = match found {
        Ok(output) if output.status.success() => {
            return Ok(folder_in(&String::from_utf8_lossy(&output.stdout)));
        }
        Ok(output) => String::from_utf8_lossy(&output.stderr).trim().to_string(),
        Err(error) => format!("{program:?} does not run: {error}"),
    };
    Err(format!(
        "no {LIBRARY}. Set ACPISET_LIB_DIR to the folder that has it, or PKG_CONFIG_PATH to the folder of \
         acpiset.pc. `make library` in the repository of acpiset builds the library, and `make install` \
         installs it.\npkg-config says: {problem}"
    ))
}

/// The folder that pkg-config prints. It writes a backslash before a blank and other marks.
fn folder_in(printed: &str) -> PathBuf {
    let mut name = String::new();
    let mut letters = printed.trim_end_matches('\n').chars();
    while let Some(letter) = letters.next() {
        name.extend(if letter == '\\' {
            letters.next()
        } else {
            Some(letter)
        });
    }
    PathBuf::from(name)
}
