// Finds the archive that `rt lib` made in crates/boundary, and the toolchain's own C library.
use std::path::Path;
use std::process::Command;

fn main() {
    let root = Path::new(env!("CARGO_MANIFEST_DIR")).join("../..").canonicalize().expect("the repository");
    let doc = Command::new("rt").arg("doc").output().expect("rt, of the Rattle toolchain, on the PATH").stdout;
    let doc = String::from_utf8(doc).expect("a path");
    let kit = Path::new(doc.trim()).parent().expect("the toolchain's folder").to_path_buf();
    println!("cargo:rustc-link-search=native={}", root.join("crates/boundary/out").display());
    println!("cargo:rustc-link-search=native={}", kit.join("c").display());
    println!("cargo:rerun-if-changed={}", root.join("crates/boundary/out/libboundary.a").display());
}
