//! Links the static library that `tools/library.sh` writes.

fn main() {
    let folder = format!("{}/../../target/staticlib", env!("CARGO_MANIFEST_DIR"));
    println!("cargo:rerun-if-changed={folder}/libtoe_c.a");
    println!("cargo:rustc-link-search=native={folder}");
    println!("cargo:rustc-link-lib=static=toe_c");
}
