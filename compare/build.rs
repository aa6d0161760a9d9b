//! Links the archives of the proved leaves and of the trace's lines, which `tools/build NAME` writes below `target/` at the root of the
//! repository. The entries and the functions on lent records come with the package `oudrameng`.
use std::path::Path;

fn main() {
    let folder = Path::new(env!("CARGO_MANIFEST_DIR")).join("../target/staticlib");
    println!("cargo:rustc-link-search=native={}", folder.display());
    for name in ["leaf_exports", "trace_exports"] {
        let archive = folder.join(format!("lib{name}.a"));
        assert!(archive.exists(), "there is no archive to link: run `tools/build {name}` at the root of the repository first");
        println!("cargo:rerun-if-changed={}", archive.display());
        println!("cargo:rustc-link-lib=static={name}");
    }
}
