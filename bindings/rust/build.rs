//! Finds the library of the primitives, `libcqs.a`, and links it: by the variable CQS_LIB, which
//! names the file; where `./build --lib` has left it in the repository; or by pkg-config.

use std::env;
use std::path::{Path, PathBuf};
use std::process::Command;

fn main() {
    println!("cargo:rerun-if-env-changed=CQS_LIB");
    println!("cargo:rerun-if-env-changed=PKG_CONFIG_PATH");
    let here = PathBuf::from(env::var_os("CARGO_MANIFEST_DIR").expect("cargo sets it"));
    let in_repository = here.join("../../crates/cqs_c/out/libcqs.a");
    println!("cargo:rerun-if-changed={}", in_repository.display());
    if let Some(library) = env::var_os("CQS_LIB") {
        return link(Path::new(&library));
    }
    if in_repository.is_file() {
        return link(&in_repository);
    }
    if let Some(folder) = folder_of_the_package() {
        return link(&folder.join("libcqs.a"));
    }
    fail("there is no libcqs.a: run `./build --lib PREFIX` at the top of the repository of cqs");
}

fn link(library: &Path) {
    if !library.is_file() {
        fail(&format!("{} isn't there: `./build --lib PREFIX` makes it", library.display()));
    }
    println!("cargo:rerun-if-changed={}", library.display());
    let folder = library.parent().expect("a file has a folder");
    let name = library.file_name().and_then(|name| name.to_str()).expect("a file has a name");
    println!("cargo:rustc-link-search=native={}", folder.display());
    println!("cargo:rustc-link-lib=static:+verbatim={name}");
}

/// The folder that pkg-config tells, where it is there and knows the package.
fn folder_of_the_package() -> Option<PathBuf> {
    let mut asked = Command::new("pkg-config");
    let told = asked.args(["--variable=libdir", "cqs"]).output().ok()?;
    let folder = String::from_utf8(told.stdout).ok()?;
    (told.status.success() && !folder.trim().is_empty()).then(|| folder.trim().into())
}

/// One line, and no trace.
fn fail(why: &str) -> ! {
    eprintln!("cqs: {why}");
    std::process::exit(1);
}
