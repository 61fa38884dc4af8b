//! Links the library: `libmailrep.a` of the folder that `MAILREP_LIB` names, which `tools/c-library` made; and where that isn't set, the
//! library that `pkg-config` finds (`PKG_CONFIG` names another program).

use std::path::Path;
use std::process::Command;
use std::{env, str};

/// What is wrong where there is neither.
const NEITHER: &str = "MAILREP_LIB has to name the folder of libmailrep.a, which tools/c-library makes, or PKG_CONFIG_PATH that of mailrep.pc";

fn main() {
    for name in ["MAILREP_LIB", "PKG_CONFIG", "PKG_CONFIG_PATH"] {
        println!("cargo::rerun-if-env-changed={name}");
    }
    match env::var("MAILREP_LIB") {
        Ok(folder) => link_folder(&folder),
        Err(_) => link_found(),
    }
}

fn link_folder(folder: &str) {
    println!("cargo::rerun-if-changed={folder}/libmailrep.a");
    if !Path::new(folder).join("libmailrep.a").is_file() {
        println!(
            "cargo::error=MAILREP_LIB has to be the whole path of a folder with libmailrep.a, which tools/c-library makes; it is {folder}"
        );
        return;
    }
    println!("cargo::rustc-link-search=native={folder}");
    println!("cargo::rustc-link-lib=static=mailrep");
}

fn link_found() {
    let program = env::var("PKG_CONFIG").unwrap_or_else(|_| "pkg-config".into());
    let asked = Command::new(&program).args(["--libs", "mailrep"]).output();
    let flags = match &asked {
        Ok(told) if told.status.success() => str::from_utf8(&told.stdout).unwrap_or_default(),
        _ => {
            println!("cargo::error={NEITHER}");
            return;
        }
    };
    for flag in flags.split_whitespace() {
        if let Some(folder) = flag.strip_prefix("-L") {
            println!("cargo::rustc-link-search=native={folder}");
        } else if let Some(library) = flag.strip_prefix("-l") {
            println!("cargo::rustc-link-lib={library}");
        }
    }
}
