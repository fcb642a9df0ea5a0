//! Finds the static library libwac.a: in the folder that the environment's WAC_LIB_DIR names, or where the repository
//! builds it, if this crate lies in it.

use std::path::PathBuf;
use std::{env, process};

fn main() {
    println!("cargo:rerun-if-env-changed=WAC_LIB_DIR");
    let Some(folder) = env::var_os("WAC_LIB_DIR").map(PathBuf::from).or_else(built) else {
        give_up(
            "the crate is outside of its repository, and WAC_LIB_DIR names no folder with libwac.a",
        );
    };
    let library = folder.join("libwac.a");
    println!("cargo:rerun-if-changed={}", library.display());
    if !library.is_file() {
        give_up(&format!("there is no {}", library.display()));
    }
    println!("cargo:rustc-link-search=native={}", folder.display());
    println!("cargo:rustc-link-lib=static=wac");
}

/// The folder in which the repository builds the library. Where the crate was copied to another place, the folder two
/// above it is somebody else's.
fn built() -> Option<PathBuf> {
    let top = PathBuf::from(env::var_os("CARGO_MANIFEST_DIR")?).join("../..");
    top.join("include/wac.h").is_file().then(|| top.join("out"))
}

/// Says what is wrong and how the library is made, and ends.
fn give_up(what: &str) -> ! {
    eprintln!("{what}");
    eprintln!("./wac --build-library at the top of the repository makes it, and a release has it:");
    eprintln!("set WAC_LIB_DIR to its folder");
    process::exit(1);
}
