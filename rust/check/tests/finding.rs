//! How the package finds the static library: its build script, run with one environment after another.

use std::fs;
use std::os::unix::fs::PermissionsExt;
use std::path::{Path, PathBuf};
use std::process::Command;
use std::sync::Mutex;

/// Held by each test: a program that is still being written cannot be run, and a process that another thread starts holds it open.
static ALONE: Mutex<()> = Mutex::new(());

/// A folder of this test's own, empty.
fn scratch(name: &str) -> PathBuf {
    let folder = Path::new(env!("CARGO_TARGET_TMPDIR")).join(name);
    let _ = fs::remove_dir_all(&folder);
    fs::create_dir_all(&folder).expect("a folder");
    folder
}

/// The build script as a program.
fn script(folder: &Path) -> PathBuf {
    let source = Path::new(env!("CARGO_MANIFEST_DIR")).join("../kanyorith/build.rs");
    let program = folder.join("script");
    let compiler = std::env::var_os("RUSTC").unwrap_or_else(|| "rustc".into());
    let compiled = Command::new(compiler).arg("--edition=2024").arg(source).arg("-o").arg(&program).status();
    assert!(compiled.expect("a compiler").success());
    program
}

/// A folder with a library, or at least with a file of its name.
fn with_library(folder: PathBuf) -> PathBuf {
    fs::create_dir_all(&folder).expect("a folder");
    fs::write(folder.join("libkanyorith.a"), "").expect("a file");
    folder
}

/// A stand-in for pkg-config, which knows version 0.1.0 in a folder.
fn pkg_config(folder: &Path, libdir: &Path) -> PathBuf {
    let program = folder.join("pkg-config");
    let text = format!(
        "#!/bin/sh\n[ \"$*\" = '--variable=libdir kanyorith = 0.1.0' ] && echo '{}'\n",
        libdir.to_str().expect("a path in Unicode")
    );
    fs::write(&program, text).expect("a file");
    fs::set_permissions(&program, fs::Permissions::from_mode(0o755)).expect("a program");
    program
}

/// What the script says to cargo: the folder that is linked from, or an error.
#[derive(Debug, PartialEq)]
enum Told {
    Folder(PathBuf),
    Error(String),
}

/// The script's word for variables on top of those of a build for x86_64 Linux.
fn told(script: &Path, variables: &[(&str, &str)]) -> Told {
    let mut command = Command::new(script);
    command.env_clear().envs([
        ("CARGO_CFG_TARGET_ARCH", "x86_64"),
        ("CARGO_CFG_TARGET_OS", "linux"),
        ("CARGO_CFG_TARGET_POINTER_WIDTH", "64"),
        ("TARGET", "x86_64-unknown-linux-gnu"),
        ("CARGO_PKG_VERSION", "0.1.0"),
    ]);
    let output = command.envs(variables.iter().copied()).output().expect("the script runs");
    let text = String::from_utf8(output.stdout).expect("text");
    assert!(output.status.success(), "{text}");
    let said = |word: &str| text.lines().find_map(|line| line.strip_prefix(word)).map(String::from);
    if let Some(error) = said("cargo::error=") {
        assert_eq!(said("cargo::rustc-link-lib="), None, "an error links nothing");
        return Told::Error(error);
    }
    assert_eq!(said("cargo::rustc-link-lib=").as_deref(), Some("static=kanyorith"));
    Told::Folder(said("cargo::rustc-link-search=native=").expect("a folder is linked from").into())
}

/// Environment, pkg-config, repository, in this order; and an error that says what to do where there is none.
#[test]
fn the_library_is_found_in_order() {
    let _alone = ALONE.lock();
    let folder = scratch("finding");
    let script = script(&folder);
    let named = with_library(folder.join("named"));
    let installed = with_library(folder.join("installed"));
    let repository = folder.join("repository/rust/kanyorith");
    let elsewhere = folder.join("elsewhere/rust/kanyorith");
    fs::create_dir_all(&repository).expect("a folder");
    fs::create_dir_all(&elsewhere).expect("a folder");
    let proved = with_library(folder.join("repository/target/staticlib"));
    let knows = pkg_config(&folder, &installed);

    let text = |path: &Path| path.to_str().expect("a path in Unicode").to_string();
    let lib_dir = |path: &Path| ("KANYORITH_LIB_DIR", text(path));
    let asking = |program: &Path| ("PKG_CONFIG", text(program));
    let inside = ("CARGO_MANIFEST_DIR", text(&repository));
    let outside = ("CARGO_MANIFEST_DIR", text(&elsewhere));
    let none = asking(&folder.join("no-pkg-config"));
    let run = |variables: &[&(&str, String)]| {
        let variables: Vec<(&str, &str)> = variables.iter().map(|(name, value)| (*name, value.as_str())).collect();
        told(&script, &variables)
    };

    assert_eq!(run(&[&lib_dir(&named), &asking(&knows), &inside]), Told::Folder(named));
    assert_eq!(run(&[&asking(&knows), &inside]), Told::Folder(installed.clone()));
    let Told::Folder(found) = run(&[&none, &inside]) else { panic!("the repository has a library") };
    assert_eq!(found.canonicalize().expect("a folder"), proved.canonicalize().expect("a folder"));

    // A folder that is named has the library, or nothing has.
    for wrong in [folder.join("no-such-folder"), PathBuf::from("installed"), PathBuf::new()] {
        let Told::Error(error) = run(&[&lib_dir(&wrong), &asking(&knows), &inside]) else { panic!("{wrong:?}") };
        assert!(error.starts_with("KANYORITH_LIB_DIR must be the absolute path of a folder"), "{error}");
    }
    // What pkg-config knows is of this version, and is there.
    let other = ("CARGO_PKG_VERSION", String::from("0.2.0"));
    let Told::Error(error) = run(&[&asking(&knows), &outside, &other]) else { panic!("no such version") };
    assert!(error.contains("pkg-config knows no kanyorith 0.2.0"), "{error}");
    fs::remove_file(installed.join("libkanyorith.a")).expect("the file was there");
    let Told::Error(error) = run(&[&asking(&knows), &outside]) else { panic!("the library is gone") };
    for part in ["libkanyorith.a is missing", "elsewhere/rust/kanyorith", "tools/build library", "PKG_CONFIG_PATH"] {
        assert!(error.contains(part), "{error}");
    }
}

/// Any other target is refused, though a library is there.
#[test]
fn other_targets_are_refused() {
    let _alone = ALONE.lock();
    let folder = scratch("targets");
    let script = script(&folder);
    let named = with_library(folder.join("named"));
    let lib_dir = ("KANYORITH_LIB_DIR", named.to_str().expect("a path in Unicode"));
    for (variable, value, target) in [
        ("CARGO_CFG_TARGET_ARCH", "aarch64", "aarch64-unknown-linux-gnu"),
        ("CARGO_CFG_TARGET_OS", "macos", "x86_64-apple-darwin"),
        ("CARGO_CFG_TARGET_POINTER_WIDTH", "32", "x86_64-unknown-linux-gnux32"),
    ] {
        let expected = format!("kanyorith links on x86_64 Linux only, and this build is for {target}");
        assert_eq!(told(&script, &[lib_dir, (variable, value), ("TARGET", target)]), Told::Error(expected));
    }
    assert_eq!(told(&script, &[lib_dir]), Told::Folder(named.clone()));
}
