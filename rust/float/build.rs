// Links the static libraries of the crates float_export and words_export into the programs that call them. FLOAT_LIB names their folder;
// without it, target/staticlib of the repository. sqrt_vectors is built without a library.
fn main() {
    let folder = std::env::var("FLOAT_LIB").unwrap_or_else(|_| {
        concat!(env!("CARGO_MANIFEST_DIR"), "/../../target/staticlib").to_string()
    });
    for (program, library) in [
        ("sqrt_compare", "float_export"),
        ("float_bench", "float_export"),
        ("words_compare", "words_export"),
    ] {
        let library = format!("{folder}/lib{library}.a");
        println!("cargo:rustc-link-arg-bin={program}={library}");
        println!("cargo:rerun-if-changed={library}");
    }
    println!("cargo:rerun-if-env-changed=FLOAT_LIB");
}
