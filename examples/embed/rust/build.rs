//! Links the archives that MODEL_ARCHIVES names, one a word: libmodel.a, and the toolchain's for the C library's heap.

fn main() {
    println!("cargo:rerun-if-env-changed=MODEL_ARCHIVES");
    for archive in std::env::var("MODEL_ARCHIVES").unwrap_or_default().split_whitespace() {
        println!("cargo:rerun-if-changed={archive}");
        println!("cargo:rustc-link-arg={archive}");
    }
}
