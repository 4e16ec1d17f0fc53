//! Where the static library of crate `exports` is: crates/exports/out, where `rt lib` puts it, or the folder that EXPORTS_DIR names.
//! Where it is missing, `no_exports` is set: what needs it then does not compile, and says so.
use std::env;
use std::path::PathBuf;

fn main() {
    let folder = match env::var_os("EXPORTS_DIR") {
        Some(named) => PathBuf::from(named),
        None => PathBuf::from(env::var_os("CARGO_MANIFEST_DIR").expect("cargo sets it")).join("../crates/exports/out"),
    };
    println!("cargo:rerun-if-env-changed=EXPORTS_DIR");
    println!("cargo:rerun-if-changed={}", folder.join("libexports.a").display());
    println!("cargo:rustc-link-search=native={}", folder.display());
    println!("cargo:rustc-check-cfg=cfg(no_exports)");
    if !folder.join("libexports.a").exists() {
        println!("cargo:rustc-cfg=no_exports");
    }
}
