//! Links the proved library, which `tools/build` writes to target/staticlib at the repository's root.
use std::path::Path;

fn main() {
    let root = Path::new(env!("CARGO_MANIFEST_DIR")).parent().expect("the repository");
    let folder = root.join("target/staticlib");
    let library = folder.join("libvepsjalm.a");
    assert!(library.exists(), "{} is not there: run `tools/build` first", library.display());
    println!("cargo:rerun-if-changed={}", library.display());
    println!("cargo:rustc-link-search=native={}", folder.display());
    println!("cargo:rustc-link-lib=static=vepsjalm");
}
