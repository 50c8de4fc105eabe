//! The tests link the proved library, which `tools/build` writes to target/staticlib at the repository's root.
use std::path::Path;

fn main() {
    let root = Path::new(env!("CARGO_MANIFEST_DIR")).parent().expect("the repository");
    let library = root.join("target/staticlib/libvepsjalm.a");
    println!("cargo:rerun-if-changed={}", library.display());
    println!("cargo:rustc-link-arg-tests={}", library.display());
}
