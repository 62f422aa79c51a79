//! Links the archive that `tools/build configuration` leaves under the repository's target/.

use std::path::PathBuf;

fn main() {
    let package = PathBuf::from(std::env::var_os("CARGO_MANIFEST_DIR").expect("cargo sets it"));
    let root = package.ancestors().nth(2).expect("the package lies two folders deep");
    let folder = root.join("target/staticlib");
    let archive = folder.join("libconfiguration.a");
    println!("cargo:rerun-if-changed={}", archive.display());
    assert!(
        archive.is_file(),
        "{} is missing: run `tools/build configuration` at the root of the repository first",
        archive.display()
    );
    println!("cargo:rustc-link-search=native={}", folder.display());
    println!("cargo:rustc-link-lib=static=configuration");
}
