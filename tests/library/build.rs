//! Links the static library that `tools/staticlib` builds.

fn main() {
    let top = std::path::Path::new(env!("CARGO_MANIFEST_DIR")).join("../../target/staticlib");
    println!("cargo:rustc-link-search=native={}", top.display());
    println!("cargo:rustc-link-lib=static=show_store");
    println!("cargo:rerun-if-changed={}", top.join("libshow_store.a").display());
}
