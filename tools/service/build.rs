// REGISTER_ARCHIVE is the folder that has libexports.a. A relative one is looked for from the folder in which cargo was started, and then from
// the one of this package: a build script runs in the latter, and the compiler at the root of the workspace.
use std::path::PathBuf;

fn main() {
    println!("cargo:rerun-if-env-changed=REGISTER_ARCHIVE");
    let given = std::env::var("REGISTER_ARCHIVE").expect(
        "REGISTER_ARCHIVE is not set: it is the folder of libexports.a (tools/service/README.md)",
    );
    let started = std::env::var("PWD").unwrap_or_default();
    let package = std::env::var("CARGO_MANIFEST_DIR").unwrap_or_default();
    let folder = [started, package]
        .iter()
        .map(|from| PathBuf::from(from).join(&given))
        .find(|folder| folder.join("libexports.a").is_file())
        .and_then(|folder| folder.canonicalize().ok())
        .unwrap_or_else(|| panic!("there is no libexports.a in REGISTER_ARCHIVE, {given}"));
    let folder = folder.display();
    println!("cargo:rerun-if-changed={folder}/libexports.a");
    println!("cargo:rustc-link-search=native={folder}");
    println!("cargo:rustc-link-lib=static=exports");
}
