//! Says where libgcf.a is: in the folder that GCF_LIB_DIR names, else where pkg-config finds what `./install` wrote.

use std::process::Command;

fn main() {
    println!("cargo:rerun-if-env-changed=GCF_LIB_DIR");
    println!("cargo:rerun-if-env-changed=PKG_CONFIG_PATH");
    match std::env::var("GCF_LIB_DIR").ok().or_else(installed) {
        Some(folder) => {
            println!("cargo:rerun-if-changed={folder}/libgcf.a");
            println!("cargo:rustc-link-search=native={folder}");
        }
        None => {
            println!("cargo:warning=libgcf.a was not found: run ./install, or name its folder in GCF_LIB_DIR")
        }
    }
}

/// The folder that pkg-config names.
fn installed() -> Option<String> {
    let answer = Command::new("pkg-config").args(["--variable=libdir", "gcf"]).output().ok()?;
    let folder = String::from_utf8(answer.stdout).ok()?.trim().to_string();
    (answer.status.success() && !folder.is_empty()).then_some(folder)
}
