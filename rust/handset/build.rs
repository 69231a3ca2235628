//! Links libhandset.a, the static library, as it is built for the processor that the crate is compiled for.
//!
//! HANDSET_LIB names the folder of the archive. A relative one is taken from this crate's folder: cargo doesn't tell a
//! build script where it was started, and so one value always means one archive. Without HANDSET_LIB the archive is
//! where `make lib TARGET=NAME` writes it, in target/lib/NAME of the repository, or in target/lib for x86-64 Linux, which
//! `make lib` needs no name for.
use std::env;
use std::ffi::OsStr;
use std::path::{Path, PathBuf};
use std::process::ExitCode;

/// The target that `make lib` builds for if it is given none.
const DEFAULT_TARGET: &str = "x86_64-unknown-linux-gnu";

fn main() -> ExitCode {
    let here = env::current_dir().expect("cargo starts a build script in its crate's folder");
    let target = env::var("TARGET").expect("cargo names the target");
    let named = env::var_os("HANDSET_LIB");
    let (folder, advice) = search(&here, &target, named.as_deref());
    let archive = folder.join("libhandset.a");
    if !archive.is_file() {
        eprintln!("There is no {}. {advice}", archive.display());
        return ExitCode::FAILURE;
    }
    println!("cargo:rustc-link-search=native={}", folder.display());
    println!("cargo:rustc-link-lib=static=handset");
    println!("cargo:rerun-if-env-changed=HANDSET_LIB");
    println!("cargo:rerun-if-changed={}", archive.display());
    ExitCode::SUCCESS
}

/// The full path of the archive's folder, and what to do if the archive isn't there. `here` is this crate's folder, and
/// `named` is what HANDSET_LIB says; an empty one says nothing.
pub fn search(here: &Path, target: &str, named: Option<&OsStr>) -> (PathBuf, String) {
    let repository = here.ancestors().nth(2).unwrap_or(here);
    let (mut built, mut make) = (repository.join("target/lib"), "make lib".to_string());
    if target != DEFAULT_TARGET {
        built.push(target);
        make = format!("make lib TARGET={target}");
    }
    let (from, run) = (here.display(), repository.display());
    match named.filter(|folder| !folder.is_empty()) {
        None => {
            let advice = format!(
                "Run `{make}` in {run}, or set HANDSET_LIB to the folder of a libhandset.a for {target}."
            );
            (built, advice)
        }
        Some(folder) => {
            let advice = format!(
                "HANDSET_LIB has to name the folder of a libhandset.a for {target}, and a relative path is taken from \
                 {from}. Or unset HANDSET_LIB, and run `{make}` in {run}."
            );
            (here.join(folder), advice)
        }
    }
}
