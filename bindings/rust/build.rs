//! Finds liblakhdzeva.a and links it statically.

use std::env;
use std::path::{Path, PathBuf};
use std::process::{exit, Command};

const ARCHIVE: &str = "liblakhdzeva.a";
const FOLDER: &str = "LAKHDZEVA_LIB_DIR";

fn main() {
    println!("cargo:rerun-if-changed=build.rs");
    println!("cargo:rerun-if-env-changed={FOLDER}");
    println!("cargo:rerun-if-env-changed=PKG_CONFIG_PATH");
    // docs.rs sets it. The pages need no library.
    println!("cargo:rerun-if-env-changed=DOCS_RS");
    if env::var_os("DOCS_RS").is_some() {
        return;
    }
    match folder() {
        Ok(folder) => {
            println!("cargo:rerun-if-changed={}", folder.join(ARCHIVE).display());
            println!("cargo:rustc-link-search=native={}", folder.display());
            println!("cargo:rustc-link-lib=static=lakhdzeva");
        }
        Err(message) => {
            eprintln!("error: {message}");
            exit(1);
        }
    }
}

/// The folder of the archive: LAKHDZEVA_LIB_DIR, or else the one that pkg-config knows.
fn folder() -> Result<PathBuf, String> {
    if let Some(folder) = env::var_os(FOLDER) {
        return with_archive(Path::new(&folder)).ok_or(format!(
            "{FOLDER} is {}, but {ARCHIVE} is not there",
            folder.to_string_lossy()
        ));
    }
    let missing = format!(
        "{ARCHIVE} was not found. Set {FOLDER} to its folder, or install the library so that \
         `pkg-config --variable=libdir lakhdzeva` names the folder."
    );
    let output = Command::new("pkg-config")
        .args(["--variable=libdir", "lakhdzeva"])
        .output()
        .map_err(|fault| format!("{missing} pkg-config did not run: {fault}"))?;
    let text = String::from_utf8_lossy(&output.stdout);
    let name = text.trim_end();
    if !output.status.success() || name.is_empty() {
        return Err(missing);
    }
    with_archive(Path::new(name)).ok_or(format!("{missing} pkg-config names {name}."))
}

/// The folder as an absolute path, if it has the archive.
fn with_archive(folder: &Path) -> Option<PathBuf> {
    let folder = folder.canonicalize().ok()?;
    folder.join(ARCHIVE).is_file().then_some(folder)
}
