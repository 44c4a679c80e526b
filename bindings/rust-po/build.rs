//! Finds the archive and links it: libpocapi.a of the folder OPTPO_LIB_DIR, or that of the
//! repository that this crate stands in.

use std::path::{Path, PathBuf};
use std::{env, process};

const TARGET: (&str, &str) = ("x86_64", "linux");
const ARCHIVE: &str = "libpocapi.a";

fn refuse(why: &str) -> ! {
    eprintln!("optpo: {why}");
    process::exit(1)
}

fn said(name: &str) -> String {
    env::var(name).unwrap_or_else(|_| refuse(&format!("{name} is not set: build this by cargo")))
}

fn main() {
    println!("cargo:rerun-if-env-changed=OPTPO_LIB_DIR");
    let (machine, system) = (said("CARGO_CFG_TARGET_ARCH"), said("CARGO_CFG_TARGET_OS"));
    if (machine.as_str(), system.as_str()) != TARGET {
        refuse(&format!(
            "the library is for x86-64 Linux, not for {machine} {system}"
        ));
    }
    let folder: PathBuf = match env::var_os("OPTPO_LIB_DIR") {
        Some(given) => given.into(),
        None => Path::new(&said("CARGO_MANIFEST_DIR")).join("../../target/staticlib"),
    };
    let archive = folder.join(ARCHIVE);
    if !archive.is_file() {
        refuse(&format!(
            "no {ARCHIVE} in {}: run `tools/built pocapi` in the repository, or set OPTPO_LIB_DIR",
            folder.display()
        ));
    }
    println!("cargo:rerun-if-changed={}", archive.display());
    println!("cargo:rustc-link-search=native={}", folder.display());
    println!("cargo:rustc-link-lib=static=pocapi");
}
