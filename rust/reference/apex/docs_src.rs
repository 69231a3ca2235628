//! Copies error.rs, lib.rs, sgal3.rs, so3.rs and util.rs of docs/src to the build's own folder, so that nothing of them
//! stands in the repository. Of lib.rs the lines `pub mod NAME;` are left out whose NAME is none of the five; nothing
//! else is, and nothing is changed but what the caller lists.
//!
//! They are looked for in the folder that the environment variable APEX_SRC names, or else in `shared` beside the
//! repository's clone.
use std::path::{Path, PathBuf};
use std::{env, fs};

const FILES: [&str; 5] = ["error", "lib", "sgal3", "so3", "util"];
/// From the folder of the workspace, `rust/reference`.
const DEFAULT: &str = "../../../shared/docs/src/crates/apex-manifolds/src";

/// Words of one of the files, and those that are put in their place, every time they occur.
pub struct Replacement {
    pub file: &'static str,
    pub old: &'static str,
    pub new: &'static str,
    /// How often they have to occur.
    pub times: usize,
}

/// Copies the files with these words replaced, and without any of the others left.
pub fn copy(replacements: &[Replacement], absent_words: &[&str]) {
    println!("cargo:rerun-if-env-changed=APEX_SRC");
    println!("cargo:rerun-if-changed=build.rs");
    println!("cargo:rerun-if-changed=../apex/docs_src.rs");
    let here = PathBuf::from(env::var("CARGO_MANIFEST_DIR").unwrap());
    let from = here
        .parent()
        .unwrap()
        .join(env::var("APEX_SRC").unwrap_or(DEFAULT.into()));
    let to = PathBuf::from(env::var("OUT_DIR").unwrap());
    for name in FILES {
        let path = source(&from, name);
        println!("cargo:rerun-if-changed={}", path.display());
        let mut text = fs::read_to_string(&path).unwrap_or_else(|e| {
            panic!(
                "{}: {e} (APEX_SRC names the folder of docs/src)",
                path.display()
            )
        });
        if name == "lib" {
            text = text
                .split_inclusive('\n')
                .filter(|line| !absent(line))
                .collect();
        }
        for r in replacements.iter().filter(|r| r.file == name) {
            let times = text.matches(r.old).count();
            let place = format!("{}: how often `{}` occurs", path.display(), r.old);
            assert_eq!(times, r.times, "{place}");
            text = text.replace(r.old, r.new);
        }
        for words in absent_words {
            assert!(!text.contains(words), "{}: `{words}`", path.display());
        }
        fs::write(to.join(format!("{name}.rs")), text).unwrap();
    }
    let root = to.join("lib.rs");
    fs::write(
        to.join("root.rs"),
        format!("#[path = {root:?}]\nmod docs_src;\npub use docs_src::*;\n"),
    )
    .unwrap();
}

/// NAME.rs, or under the flat names in which the documents stand: src--crates--apex-manifolds--src--NAME.rs.txt.
fn source(from: &Path, name: &str) -> PathBuf {
    let flat = from.join(format!("src--crates--apex-manifolds--src--{name}.rs.txt"));
    if flat.exists() {
        flat
    } else {
        from.join(format!("{name}.rs"))
    }
}

fn absent(line: &str) -> bool {
    line.strip_prefix("pub mod ")
        .and_then(|rest| rest.trim_end().strip_suffix(';'))
        .is_some_and(|name| !FILES.contains(&name))
}
