//! Links libjirrambeo.a, which lies in the folder that `JIRRAMBEO_LIB` names, or else in hosts/lib, where hosts/build puts it.
use std::env;
use std::path::PathBuf;

fn main() {
    println!("cargo::rerun-if-env-changed=JIRRAMBEO_LIB");
    let folder = env::var_os("JIRRAMBEO_LIB").map_or_else(
        || PathBuf::from(env!("CARGO_MANIFEST_DIR")).join("../lib"),
        PathBuf::from,
    );
    let archive = folder.join("libjirrambeo.a");
    assert!(
        archive.is_file(),
        "{} is not there: hosts/build makes it",
        archive.display()
    );
    println!("cargo::rerun-if-changed={}", archive.display());
    println!("cargo::rustc-link-search=native={}", folder.display());
    println!("cargo::rustc-link-lib=static=jirrambeo");
}
