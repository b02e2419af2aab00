//! Links the library's archive for this machine, which `./archive` in the project's folder writes.

use std::path::Path;

const VARIABLE: &str = "WICKORCHARD_ARCHIVE_FOLDER";

fn main() {
    let package = std::env::var("CARGO_MANIFEST_DIR").expect("cargo names the package's folder");
    let project = Path::new(&package).join("../..").canonicalize().expect("the package stands in its project");
    let folder = std::env::var(VARIABLE).map_or_else(|_| project.join("target/native"), Into::into);
    let archive = folder.join("libwickorchard.a");
    println!("cargo::rerun-if-env-changed={VARIABLE}");
    println!("cargo::rerun-if-changed={}", archive.display());
    if !archive.is_file() {
        println!("cargo::error=there is no {}: run {}/archive first", archive.display(), project.display());
        return;
    }
    println!("cargo::rustc-link-search=native={}", folder.display());
    println!("cargo::rustc-link-lib=static=wickorchard");
}
