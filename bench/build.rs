//! Links the product's libraries that bench/run has made.

fn main() {
    let folder = format!("{}/../target/staticlib", env!("CARGO_MANIFEST_DIR"));
    println!("cargo:rustc-link-search=native={folder}");
    for name in ["fenuschia_c", "bench_calls", "batch_bench", "redundancy_bench"] {
        println!("cargo:rustc-link-lib=static={name}");
        println!("cargo:rerun-if-changed={folder}/lib{name}.a");
    }
}
