//! Links the static library that `tools/library.sh` writes.

fn main() {
    let here = std::env::var("CARGO_MANIFEST_DIR").unwrap();
    let folder = std::env::var("TOE_C").unwrap_or(format!("{here}/../../target/staticlib"));
    println!("cargo:rerun-if-env-changed=TOE_C");
    println!("cargo:rerun-if-changed={folder}/libtoe_c.a");
    println!("cargo:rustc-link-search=native={folder}");
    println!("cargo:rustc-link-lib=static=toe_c");
}
