// Links the project's C, which the script `run` builds.
use std::path::Path;

fn main() {
    let here = std::env::var("CARGO_MANIFEST_DIR").expect("cargo names the project's folder");
    let here = Path::new(&here);
    for name in ["baseline_c", "stack"] {
        link(&here.join("../target/outside"), name);
    }
}

fn link(folder: &Path, name: &str) {
    let archive = folder.join(format!("lib{name}.a"));
    println!("cargo:rerun-if-changed={}", archive.display());
    assert!(archive.exists(), "{} is not built: use the script `run`", archive.display());
    println!("cargo:rustc-link-search=native={}", folder.display());
    println!("cargo:rustc-link-lib=static={name}");
}
