//! Names the folder of libhooflift.a: HOOFLIFT_LIB, or where `bindings/library.sh` puts it.
fn main() {
    let folder = std::env::var("HOOFLIFT_LIB").unwrap_or_else(|_| concat!(env!("CARGO_MANIFEST_DIR"), "/../../target/staticlib").to_string());
    println!("cargo:rerun-if-env-changed=HOOFLIFT_LIB");
    println!("cargo:rerun-if-changed={folder}/libhooflift.a");
    println!("cargo:rustc-link-search=native={folder}");
    println!("cargo:rustc-link-lib=static=hooflift");
}
