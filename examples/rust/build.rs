//! Links the library that examples/run makes.

fn main() {
    let folder = format!("{}/../../target/staticlib", env!("CARGO_MANIFEST_DIR"));
    println!("cargo:rustc-link-search=native={folder}");
    println!("cargo:rustc-link-lib=static=fenuschia_c");
    println!("cargo:rerun-if-changed={folder}/libfenuschia_c.a");
}
