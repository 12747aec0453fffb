//! Links the library that `rt lib` has built in crates/inet_c, or the one in the folder that INET_C_DIR names.
use std::env;
use std::path::PathBuf;

fn main() {
    let here = PathBuf::from(env::var("CARGO_MANIFEST_DIR").expect("cargo sets it"));
    let folder = env::var_os("INET_C_DIR").map_or(here.join("../../crates/inet_c/out"), PathBuf::from);
    println!("cargo::rustc-link-search=native={}", folder.display());
    println!("cargo::rustc-link-lib=static=inet_c");
    println!("cargo::rerun-if-changed={}", folder.join("libinet_c.a").display());
    println!("cargo::rerun-if-env-changed=INET_C_DIR");
}
