// Links the static library of the crate sgal3_export, for exp, log and adjoint: in target/staticlib of the repository.
fn main() {
    let folder = concat!(env!("CARGO_MANIFEST_DIR"), "/../../target/staticlib");
    println!("cargo:rustc-link-search=native={folder}");
    println!("cargo:rustc-link-lib=static=sgal3_export");
    println!("cargo:rerun-if-changed={folder}/libsgal3_export.a");
}
