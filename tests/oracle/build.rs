//! Tells where the archive of the proved part is. Only the feature `face` needs it.

use std::{env, fs};

const FOLDER: &str = "HADULMIR_ARCHIVE_DIR";

fn main() {
    println!("cargo:rerun-if-changed=build.rs");
    println!("cargo:rerun-if-env-changed={FOLDER}");
    if env::var_os("CARGO_FEATURE_FACE").is_none() {
        return;
    }
    match env::var(FOLDER) {
        Ok(folder) => link(&folder),
        Err(_) => println!("cargo:warning={FOLDER} is not set: no program can be linked"),
    }
}

fn link(folder: &str) {
    match fs::canonicalize(folder) {
        Ok(path) => {
            let path = path.display();
            println!("cargo:rerun-if-changed={path}/libhadulmir.a");
            println!("cargo:rustc-link-search=native={path}");
            println!("cargo:rustc-link-lib=static=hadulmir");
        }
        Err(error) => println!("cargo:warning={FOLDER}, {folder}: {error}"),
    }
}
