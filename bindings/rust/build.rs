// Finds the proved archive and links it: in the folder that PLANNER_LIB_DIR names, in this repository's target folder,
// or where pkg-config says that `make install` has put it.
use std::env;
use std::path::{Path, PathBuf};
use std::process::{exit, Command};

/// The variable that names a folder with the archive.
const FOLDER: &str = "PLANNER_LIB_DIR";

/// The archive's names, as `make install` and `tools/archive` write it.
const NAMES: [&str; 2] = ["planner", "planner_c"];

fn main() {
    println!("cargo:rerun-if-env-changed={FOLDER}");
    println!("cargo:rerun-if-env-changed=PKG_CONFIG_PATH");
    let Some((folder, name)) = archive() else {
        eprintln!("the planner's archive is not found. Use one of these:");
        eprintln!("  {FOLDER}=FOLDER cargo build    where FOLDER has libplanner.a");
        eprintln!("  make install PREFIX=..         and PKG_CONFIG_PATH=../lib/pkgconfig");
        eprintln!("  tools/archive                  in the planner's repository");
        exit(1);
    };
    println!("cargo:rerun-if-changed={}", folder.join(format!("lib{name}.a")).display());
    println!("cargo:rustc-link-search=native={}", folder.display());
    println!("cargo:rustc-link-lib=static={name}");
}

/// The folder of the archive and its name there.
fn archive() -> Option<(PathBuf, &'static str)> {
    if let Some(folder) = env::var_os(FOLDER) {
        return in_folder(folder.into());
    }
    let here = env::var_os("CARGO_MANIFEST_DIR")?;
    let built = Path::new(&here).join("../../target/staticlib");
    println!("cargo:rerun-if-changed={}", built.display());
    in_folder(built).or_else(|| in_folder(installed()?))
}

fn in_folder(folder: PathBuf) -> Option<(PathBuf, &'static str)> {
    let name = NAMES.into_iter().find(|name| folder.join(format!("lib{name}.a")).exists())?;
    Some((folder, name))
}

/// The folder that pkg-config knows.
fn installed() -> Option<PathBuf> {
    let asked = Command::new("pkg-config").args(["--variable=libdir", "planner"]).output().ok()?;
    let folder = String::from_utf8(asked.stdout).ok()?;
    (!folder.trim().is_empty()).then(|| folder.trim().into())
}
