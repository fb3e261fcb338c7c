//! Links the proved library, target/staticlib/libropeinstant.a (tool/build makes it).
use std::path::Path;

fn main() {
    let folder = Path::new(env!("CARGO_MANIFEST_DIR")).join("../target/staticlib");
    let library = folder.join("libropeinstant.a");
    if !library.is_file() {
        panic!("{} is missing: run tool/build first", library.display());
    }
    println!("cargo:rustc-link-search=native={}", folder.display());
    println!("cargo:rustc-link-lib=static=ropeinstant");
    println!("cargo:rerun-if-changed={}", library.display());
}
