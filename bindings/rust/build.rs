//! Finds libhyssopplinth.a, and says to the compiler where it stands.
//!
//! It is looked for in the folder of HYSSOPPLINTH_LIB_DIR; where that is not set, in the one that `pkg-config` names.
use std::path::{Path, PathBuf};
use std::process::{exit, Command};
use std::{env, fs};

const ARCHIVE: &str = "libhyssopplinth.a";

const HELP: &str = "\
hyssopplinth: libhyssopplinth.a was not found.

It is made by `make` in bindings/c of a checkout of Hyssopplinth, from the archive that `rt lib` makes in crates/reencode_c. Then say
where it stands:

    export HYSSOPPLINTH_LIB_DIR=/path/to/hyssopplinth/bindings/c

or put it where pkg-config finds it, by `make install PREFIX=/usr/local` in bindings/c.";

fn main() {
    println!("cargo:rerun-if-changed=build.rs");
    for name in ["HYSSOPPLINTH_LIB_DIR", "PKG_CONFIG", "PKG_CONFIG_PATH", "PKG_CONFIG_LIBDIR"] {
        println!("cargo:rerun-if-env-changed={name}");
    }
    let folder = match found() {
        Ok(folder) => folder,
        Err(why) => {
            eprintln!("{HELP}\n\n{why}");
            exit(1)
        }
    };
    println!("cargo:rerun-if-changed={}", folder.join(ARCHIVE).display());
    println!("cargo:rustc-link-search=native={}", folder.display());
    println!("cargo:rustc-link-lib=static=hyssopplinth");
}

/// The folder of the archive, or where it was looked for.
fn found() -> Result<PathBuf, String> {
    if let Some(folder) = env::var_os("HYSSOPPLINTH_LIB_DIR") {
        return in_folder(Path::new(&folder)).map_err(|why| format!("HYSSOPPLINTH_LIB_DIR is set, and {why}."));
    }
    let command = env::var_os("PKG_CONFIG").unwrap_or_else(|| "pkg-config".into());
    let ran = match Command::new(&command).args(["--variable=libdir", "hyssopplinth"]).output() {
        Ok(ran) => ran,
        Err(why) => {
            return Err(format!("HYSSOPPLINTH_LIB_DIR is not set, and {} could not be run: {why}.", Path::new(&command).display()));
        }
    };
    if !ran.status.success() {
        return Err("HYSSOPPLINTH_LIB_DIR is not set, and pkg-config knows no hyssopplinth.".to_string());
    }
    let folder = String::from_utf8_lossy(&ran.stdout).trim().to_string();
    in_folder(Path::new(&folder)).map_err(|why| format!("HYSSOPPLINTH_LIB_DIR is not set, pkg-config names a folder, and {why}."))
}

/// The folder, in full, if the archive stands there.
fn in_folder(folder: &Path) -> Result<PathBuf, String> {
    match fs::canonicalize(folder) {
        Ok(folder) if folder.join(ARCHIVE).is_file() => Ok(folder),
        Ok(folder) => Err(format!("there is no {ARCHIVE} in {}", folder.display())),
        Err(why) => Err(format!("{} could not be opened: {why}", folder.display())),
    }
}
