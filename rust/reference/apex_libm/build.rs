//! Copies docs/src to the build's own folder, unchanged.

#[path = "../apex/docs_src.rs"]
mod docs_src;

fn main() {
    docs_src::copy(&[], &[]);
}
