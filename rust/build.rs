//! Links the static library: BINARY_FIELD_LIBRARY names the folder of libbinary_field.a, which scripts/build-library makes. Where it is not
//! there, `cargo check`, `cargo doc` and editors work all the same, with a warning, and `cargo build` ends with the name of what is missing.

use std::env;
use std::path::{Path, PathBuf};

const ARCHIVE: &str = "libbinary_field.a";

fn main() {
    println!("cargo::rerun-if-env-changed=BINARY_FIELD_LIBRARY");
    println!(
        "cargo::rustc-check-cfg=cfg(feature, values(\"serde\", \"rand\", \"num-traits\", \"hardware\"))"
    );
    println!("cargo::rustc-link-lib=static=binary_field");
    let folders = folders();
    let Some(folder) = folders.iter().find(|it| it.join(ARCHIVE).is_file()) else {
        warn(&folders);
        return;
    };
    let folder = folder.display();
    println!("cargo::rerun-if-changed={folder}/{ARCHIVE}");
    println!("cargo::rustc-link-search=native={folder}");
}

/// Says what is missing, and has cargo look again once it is where it was looked for.
fn warn(folders: &[PathBuf]) {
    let named = match env::var("BINARY_FIELD_LIBRARY") {
        Ok(folder) => format!("BINARY_FIELD_LIBRARY is {folder}, where there is no {ARCHIVE}"),
        Err(_) => format!("BINARY_FIELD_LIBRARY is not set, and {ARCHIVE} is nowhere else"),
    };
    println!(
        "cargo::warning={named}, so that nothing can be linked. A release has it, in the folder lib of what it installs; in the repository \
         that this crate comes from, `scripts/build-library build` makes build/lib/{ARCHIVE}. Set BINARY_FIELD_LIBRARY to that folder lib"
    );
    for folder in folders {
        println!("cargo::rerun-if-changed={}/{ARCHIVE}", folder.display());
    }
}

/// The folders in which the library may be. A relative one is below the folder that cargo was started in, or below one of the crate's.
/// Where none is named, it is build/lib of the repository, or one of the system's.
fn folders() -> Vec<PathBuf> {
    let crate_folder = PathBuf::from(env::var_os("CARGO_MANIFEST_DIR").unwrap_or_default());
    let mut found: Vec<PathBuf> = Vec::new();
    if let Some(named) = env::var_os("BINARY_FIELD_LIBRARY") {
        found.extend(env::var_os("PWD").map(|started| Path::new(&started).join(&named)));
        found.extend(crate_folder.ancestors().map(|it| it.join(&named)));
    } else {
        found.extend(
            crate_folder
                .ancestors()
                .take(3)
                .map(|it| it.join("build/lib")),
        );
        let machine = env::var("CARGO_CFG_TARGET_ARCH").unwrap_or_default();
        found.push(PathBuf::from("/usr/local/lib"));
        found.push(PathBuf::from(format!("/usr/lib/{machine}-linux-gnu")));
        found.push(PathBuf::from("/usr/lib"));
    }
    found
}
