//! Links the proved library, and OpenColorIO and Imath where their headers are installed (`cfg(ocio)`, `cfg(imath)`).
use std::path::Path;
use std::process::Command;

fn main() {
    let here = Path::new(env!("CARGO_MANIFEST_DIR"));
    let library = here.join("../target/staticlib");
    println!("cargo:rustc-link-search=native={}", library.display());
    println!("cargo:rustc-link-lib=static=ropeinstant");
    println!("cargo:rerun-if-changed={}", library.join("libropeinstant.a").display());
    link("ocio", "/usr/include/OpenColorIO/OpenColorIO.h", "OpenColorIO");
    link("imath", "/usr/include/Imath/half.h", "Imath-3_1");
}

/// A file of C++ over another library, where the header of that is installed.
fn link(name: &str, header: &str, library: &str) {
    println!("cargo:rerun-if-changed={}.cpp", name);
    println!("cargo:rerun-if-changed={}", header);
    println!("cargo:rustc-check-cfg=cfg({})", name);
    if !Path::new(header).exists() {
        return;
    }
    let folder = std::env::var("OUT_DIR").unwrap();
    let folder = Path::new(&folder);
    let object = folder.join(format!("{}.o", name));
    run(Command::new("g++").args(["-O2", "-Wall", "-Wextra", "-c"]).arg(format!("{}.cpp", name)).arg("-o").arg(&object));
    run(Command::new("ar").arg("crs").arg(folder.join(format!("lib{}.a", name))).arg(&object));
    println!("cargo:rustc-cfg={}", name);
    println!("cargo:rustc-link-search=native={}", folder.display());
    println!("cargo:rustc-link-lib=static={}", name);
    println!("cargo:rustc-link-lib={}", library);
    println!("cargo:rustc-link-lib=stdc++");
}

fn run(command: &mut Command) {
    let status = command.status().unwrap_or_else(|error| panic!("{:?}: {}", command, error));
    assert!(status.success(), "{:?} failed", command);
}
