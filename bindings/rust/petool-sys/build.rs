//! Links libpetool: the archive in the folder that PETOOL_LIB_DIR names, or else what pkg-config says of `petool`.

use std::env;
use std::path::Path;
use std::process::{exit, Command};

const FOLDER: &str = "PETOOL_LIB_DIR";

fn main() {
    println!("cargo:rerun-if-env-changed={FOLDER}");
    println!("cargo:rerun-if-env-changed=PKG_CONFIG_PATH");
    println!("cargo:rerun-if-changed=build.rs");
    match env::var(FOLDER) {
        Ok(folder) => link_archive(&folder),
        Err(_) => link_installed(),
    }
}

fn link_archive(folder: &str) {
    let archive = Path::new(folder).join("libpetool.a");
    if !archive.is_file() {
        refuse(&format!("{FOLDER} is {folder}, and there is no libpetool.a in it"));
    }
    println!("cargo:rerun-if-changed={}", archive.display());
    println!("cargo:rustc-link-search=native={folder}");
    println!("cargo:rustc-link-lib=static=petool");
}

fn link_installed() {
    let told = Command::new("pkg-config").args(["--libs", "petool"]).output();
    let words = match told {
        Ok(told) if told.status.success() => String::from_utf8_lossy(&told.stdout).into_owned(),
        _ => return refuse("neither is PETOOL_LIB_DIR set, nor does `pkg-config --libs petool` find the library"),
    };
    for word in words.split_whitespace() {
        if let Some(folder) = word.strip_prefix("-L") {
            println!("cargo:rustc-link-search=native={folder}");
        } else if let Some(name) = word.strip_prefix("-l") {
            println!("cargo:rustc-link-lib={name}");
        }
    }
}

fn refuse(reason: &str) {
    eprintln!("petool-sys: libpetool is not found: {reason}.");
    eprintln!("Set {FOLDER} to the folder that has libpetool.a; `make -C bindings/c O=FOLDER` makes it there.");
    exit(1);
}
