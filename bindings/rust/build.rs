//! Tells the compiler where the library is: in the folder that the environment names; otherwise in
//! the folder `lib` of this package, as it is released; otherwise in that of the repository, if
//! this package is in it; otherwise where pkg-config finds it.

use std::env;
use std::ffi::OsString;
use std::path::{Path, PathBuf};
use std::process::Command;

/// The environment variable that names the folder.
const VARIABLE: &str = "TOWNSHIP_LIB_DIR";

/// The folder of the library, relative to this package: in a release of it, and in the repository.
const IN_RELEASE: &str = "lib";
const IN_REPOSITORY: &str = "../../lib";

/// A file that the tests and the examples read. In a release, it is in this package; in the repository, it is where
/// everyone looks for it, two folders above.
const HEADER: &str = "include/township.h";
const REPOSITORY: &str = "../..";

const STATIC: &str = "libtownship.a";
const SHARED: &str = "libtownship.so";

fn main() {
    println!("cargo:rerun-if-env-changed={VARIABLE}");
    println!("cargo:rerun-if-env-changed=PKG_CONFIG_PATH");
    println!("cargo:rerun-if-changed=build.rs");
    let package = PathBuf::from(variable("CARGO_MANIFEST_DIR").expect("cargo names the folder"));
    let files = files(&package);
    println!("cargo:rustc-env=TOWNSHIP_FILES={}", files.display());
    write_readme(&package, &files);
    let usual = [IN_RELEASE, IN_REPOSITORY].map(|folder| package.join(folder));
    // A relative name is relative to this package.
    let folder = variable(VARIABLE)
        .map(|named| package.join(named))
        .or_else(|| usual.iter().find(|folder| has_library(folder)).cloned())
        .or_else(installed)
        .unwrap_or_else(|| package.join(IN_REPOSITORY));
    // A check of the types links nothing, and succeeds without the library. Only a build needs it,
    // and then fails to find it; this line says what to do.
    if !has_library(&folder) {
        println!(
            "cargo:warning=there is no {STATIC} or {SHARED} in {}; `make lib` in the repository \
             builds them, `make install` installs them, and {VARIABLE} can name their folder",
            folder.display()
        );
    }
    let (kind, file) = if folder.join(STATIC).is_file() || !folder.join(SHARED).is_file() {
        ("static", STATIC)
    } else {
        ("dylib", SHARED)
    };
    println!("cargo:rerun-if-changed={}", folder.join(file).display());
    println!("cargo:rustc-link-search=native={}", folder.display());
    println!("cargo:rustc-link-lib={kind}=township");
}

/// Returns the folder of the samples, the header, and the pages that the tests and the examples read.
fn files(package: &Path) -> PathBuf {
    if package.join(HEADER).is_file() {
        package.to_owned()
    } else {
        package.join(REPOSITORY)
    }
}

/// Writes the README as its examples are run: they read the samples in this folder.
fn write_readme(package: &Path, files: &Path) {
    let readme = package.join("README.md");
    println!("cargo:rerun-if-changed={}", readme.display());
    let text = std::fs::read_to_string(readme).expect("the package has a README");
    let run = text.replace("\"samples/", &format!("\"{}/samples/", files.display()));
    let folder = PathBuf::from(variable("OUT_DIR").expect("cargo names the folder"));
    std::fs::write(folder.join("README.md"), run).expect("the folder can be written");
}

/// Returns a variable of the environment, unless it is empty.
fn variable(name: &str) -> Option<OsString> {
    env::var_os(name).filter(|value| !value.is_empty())
}

/// Returns whether a folder contains the library.
fn has_library(folder: &Path) -> bool {
    folder.join(STATIC).is_file() || folder.join(SHARED).is_file()
}

/// Returns the folder of the installed library, if pkg-config knows it.
fn installed() -> Option<PathBuf> {
    let program = variable("PKG_CONFIG").unwrap_or_else(|| "pkg-config".into());
    let asked = Command::new(program)
        .args(["--variable=libdir", "township"])
        .output()
        .ok()?;
    let folder = String::from_utf8(asked.stdout).ok()?;
    let folder = folder.trim_end();
    (asked.status.success() && !folder.is_empty()).then(|| folder.into())
}
