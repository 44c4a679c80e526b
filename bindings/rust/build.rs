//! Finds the archive and links it: liboptlines.a or libcapi.a of the folder OPTLINES_LIB_DIR, or
//! libcapi.a of the repository that this crate stands in.

use std::path::{Path, PathBuf};
use std::{env, process};

const TARGET: (&str, &str) = ("x86_64", "linux");
const NAMES: [&str; 2] = ["optlines", "capi"];

fn refuse(why: &str) -> ! {
    eprintln!("optlines: {why}");
    process::exit(1)
}

fn said(name: &str) -> String {
    env::var(name).unwrap_or_else(|_| refuse(&format!("{name} is not set: build this by cargo")))
}

/// The folder to look in, and what to run where the archive is not there.
fn folder() -> (PathBuf, &'static str) {
    match env::var_os("OPTLINES_LIB_DIR") {
        Some(given) => (
            given.into(),
            "set OPTLINES_LIB_DIR to the folder that has it",
        ),
        None => {
            let crate_folder = said("CARGO_MANIFEST_DIR");
            let built = Path::new(&crate_folder).join("../../target/staticlib");
            (
                built,
                "run `tools/built capi` in the repository, or set OPTLINES_LIB_DIR",
            )
        }
    }
}

fn main() {
    println!("cargo:rerun-if-env-changed=OPTLINES_LIB_DIR");
    let (machine, system) = (said("CARGO_CFG_TARGET_ARCH"), said("CARGO_CFG_TARGET_OS"));
    if (machine.as_str(), system.as_str()) != TARGET {
        refuse(&format!(
            "the library is for x86-64 Linux, not for {machine} {system}"
        ));
    }
    let (folder, advice) = folder();
    let archive = |name: &&&str| folder.join(format!("lib{name}.a")).is_file();
    let Some(name) = NAMES.iter().find(archive) else {
        refuse(&format!(
            "no liboptlines.a or libcapi.a in {}: {advice}",
            folder.display()
        ))
    };
    println!(
        "cargo:rerun-if-changed={}",
        folder.join(format!("lib{name}.a")).display()
    );
    println!("cargo:rustc-link-search=native={}", folder.display());
    println!("cargo:rustc-link-lib=static={name}");
}
