//! Links the archives of the proved entries and of the functions on lent records, which `tools/build NAME` writes below `target/` at the
//! root of the repository.
use std::path::Path;

fn main() {
    let folder = Path::new(env!("CARGO_MANIFEST_DIR")).join("../../target/staticlib");
    println!("cargo:rustc-link-search=native={}", folder.display());
    for name in ["monitor_exports", "lent_hart", "lent_mmio_regions"] {
        let archive = folder.join(format!("lib{name}.a"));
        assert!(archive.exists(), "there is no archive to link: run `tools/build {name}` at the root of the repository first");
        println!("cargo:rerun-if-changed={}", archive.display());
        println!("cargo:rustc-link-lib=static={name}");
    }
}
