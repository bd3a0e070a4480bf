//! Links the library: the one in the folder that `RESP_PREFIX` names, or the one inside this crate, or the one that
//! `./build c` installs in `out/c`, or the one that pkg-config knows.

use std::env;
use std::path::{Path, PathBuf};
use std::process::Command;

fn main() {
    println!("cargo:rerun-if-env-changed=RESP_PREFIX");
    let here = PathBuf::from(env!("CARGO_MANIFEST_DIR"));
    let inside = here.join("lib/x86_64-linux");
    let is_for_it = target("ARCH") == "x86_64" && target("OS") == "linux";
    if let Some(prefix) = env::var_os("RESP_PREFIX") {
        link(&PathBuf::from(prefix).join("lib"));
    } else if is_for_it && inside.join("libresp.a").is_file() {
        link(&inside);
    } else if here.join("../../out/c/lib/libresp.a").is_file() {
        link(&here.join("../../out/c/lib"));
    } else {
        link_as_installed();
    }
}

/// Returns a property of the processor and system that the crate is built for.
fn target(property: &str) -> String {
    env::var(format!("CARGO_CFG_TARGET_{property}")).unwrap_or_default()
}

/// Links the archive in a folder.
fn link(folder: &Path) {
    println!("cargo:rustc-link-search=native={}", folder.display());
    println!("cargo:rustc-link-lib=static=resp");
    println!("cargo:rerun-if-changed={}", folder.join("libresp.a").display());
}

/// Links the library that pkg-config finds.
fn link_as_installed() {
    let asked = Command::new("pkg-config").args(["--variable=libdir", "resp"]).output();
    match asked {
        Ok(said) if said.status.success() => {
            let folder = String::from_utf8_lossy(&said.stdout).trim().to_owned();
            println!("cargo:rustc-link-search=native={folder}");
            println!("cargo:rustc-link-lib=resp");
        }
        _ => panic!(
            "libresp was not found: install libresp-dev, or run ./build c in the repository of resp, \
             or set RESP_PREFIX to the folder that has lib/libresp.a"
        ),
    }
}
