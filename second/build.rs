//! Links the proved library where it has been built.

use std::env;
use std::path::PathBuf;

fn main() {
    println!("cargo:rustc-check-cfg=cfg(have_proved)");
    println!("cargo:rerun-if-env-changed=MC88200_STATICLIB");
    println!("cargo:rerun-if-changed=build.rs");

    let package = PathBuf::from(env::var_os("CARGO_MANIFEST_DIR").unwrap_or_default());
    let folder = match env::var_os("MC88200_STATICLIB") {
        Some(folder) => PathBuf::from(folder),
        None => package.join("../target/staticlib"),
    };
    let library = folder.join("libmc88200.a");
    println!("cargo:rerun-if-changed={}", library.display());
    if library.exists() {
        println!("cargo:rustc-link-search=native={}", folder.display());
        println!("cargo:rustc-link-lib=static=mc88200");
        println!("cargo:rustc-cfg=have_proved");
    }
}
