//! Links the port's static library, which `tools/archive bridge` writes.

fn main() {
    let folder = format!("{}/../../target/staticlib", env!("CARGO_MANIFEST_DIR"));
    println!("cargo:rustc-link-search=native={folder}");
    println!("cargo:rustc-link-lib=static=bridge");
    println!("cargo:rerun-if-changed={folder}/libbridge.a");
}
