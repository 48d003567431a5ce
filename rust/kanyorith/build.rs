//! Finds the static library: in the folder that KANYORITH_LIB_DIR names, else by pkg-config, else in the repository.

use std::env;
use std::path::{Path, PathBuf};
use std::process::Command;

const LIBRARY: &str = "libkanyorith.a";

fn main() {
    println!("cargo::rerun-if-changed=build.rs");
    for variable in ["KANYORITH_LIB_DIR", "PKG_CONFIG", "PKG_CONFIG_PATH", "PKG_CONFIG_LIBDIR"] {
        println!("cargo::rerun-if-env-changed={variable}");
    }
    match right_target().and_then(|()| folder()) {
        Ok(folder) => {
            println!("cargo::rerun-if-changed={}", folder.join(LIBRARY).display());
            println!("cargo::rustc-link-search=native={}", folder.display());
            println!("cargo::rustc-link-lib=static=kanyorith");
        }
        Err(reason) => println!("cargo::error={reason}"),
    }
}

/// A variable that cargo sets for build scripts.
fn cargo(variable: &str) -> String {
    env::var(variable).unwrap_or_else(|_| panic!("cargo sets {variable} for a build script"))
}

/// The library is compiled for x86_64 Linux, and its archive links nowhere else.
fn right_target() -> Result<(), String> {
    let target = ["ARCH", "OS", "POINTER_WIDTH"].map(|part| cargo(&format!("CARGO_CFG_TARGET_{part}")));
    if target == ["x86_64", "linux", "64"] {
        return Ok(());
    }
    Err(format!("kanyorith links on x86_64 Linux only, and this build is for {}", cargo("TARGET")))
}

/// The folder of the library, or where it was looked for.
fn folder() -> Result<PathBuf, String> {
    // Whoever names a folder means this one: another library is not taken in its place.
    if let Some(named) = env::var_os("KANYORITH_LIB_DIR") {
        let named = Path::new(&named);
        return holding(named).filter(|_| named.is_absolute()).ok_or_else(|| {
            format!("KANYORITH_LIB_DIR must be the absolute path of a folder with {LIBRARY}: {}", named.display())
        });
    }
    let version = cargo("CARGO_PKG_VERSION");
    let repository = Path::new(&cargo("CARGO_MANIFEST_DIR")).join("../../target/staticlib");
    by_pkg_config(&version).or_else(|| holding(&repository)).ok_or_else(|| {
        format!(
            "{LIBRARY} is missing: KANYORITH_LIB_DIR is not set, pkg-config knows no kanyorith {version}, and {} has none. \
             In the repository, run `tools/build library` first; elsewhere, set KANYORITH_LIB_DIR to the folder of an \
             installed {LIBRARY}, or PKG_CONFIG_PATH to that of its kanyorith.pc",
            repository.display()
        )
    })
}

/// The folder, if the library is in it.
fn holding(folder: &Path) -> Option<PathBuf> {
    folder.join(LIBRARY).is_file().then(|| folder.to_path_buf())
}

/// The folder that pkg-config names for this very version: the declarations in `src/raw.rs` are those of its header.
fn by_pkg_config(version: &str) -> Option<PathBuf> {
    let program = env::var_os("PKG_CONFIG").unwrap_or_else(|| "pkg-config".into());
    let package = format!("kanyorith = {version}");
    let output = Command::new(program).args(["--variable=libdir", &package]).output().ok()?;
    let told = output.status.success().then_some(output.stdout)?;
    holding(Path::new(str::from_utf8(&told).ok()?.trim_end()))
}
