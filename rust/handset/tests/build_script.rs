//! Where the build script looks for the static library, and what it says if it isn't there.
#[allow(dead_code)]
#[path = "../build.rs"]
mod build;

use std::ffi::OsStr;
use std::path::Path;

fn search(target: &str, named: Option<&str>) -> (String, String) {
    let here = Path::new("/a/rust/handset");
    let (folder, advice) = build::search(here, target, named.map(OsStr::new));
    assert!(folder.is_absolute());
    (folder.display().to_string(), advice)
}

#[test]
fn for_the_target() {
    for (target, folder, make) in [
        ("x86_64-unknown-linux-gnu", "/a/target/lib", "`make lib`"),
        (
            "thumbv7em-none-eabi",
            "/a/target/lib/thumbv7em-none-eabi",
            "`make lib TARGET=thumbv7em-none-eabi`",
        ),
    ] {
        for unset in [None, Some("")] {
            let (found, advice) = search(target, unset);
            assert_eq!(found, folder);
            let what = format!(
                "Run {make} in /a, or set HANDSET_LIB to the folder of a libhandset.a for {target}."
            );
            assert_eq!(advice, what);
        }
    }
}

/// A relative path is taken from the crate's folder.
#[test]
fn where_handset_lib_says() {
    for (named, folder) in [
        ("/b/lib", "/b/lib"),
        ("lib", "/a/rust/handset/lib"),
        (
            "../../target/lib/cortex-m7",
            "/a/rust/handset/../../target/lib/cortex-m7",
        ),
    ] {
        let (found, advice) = search("thumbv7em-none-eabihf", Some(named));
        assert_eq!(found, folder);
        for part in [
            "HANDSET_LIB has to name the folder of a libhandset.a for thumbv7em-none-eabihf",
            "a relative path is taken from /a/rust/handset.",
            "run `make lib TARGET=thumbv7em-none-eabihf` in /a.",
        ] {
            assert!(advice.contains(part), "{advice}");
        }
    }
}
