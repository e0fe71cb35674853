//! Links the proved library, when the feature asks for it.

use std::env;

fn main() {
    println!("cargo:rerun-if-changed=build.rs");
    println!("cargo:rerun-if-env-changed=AWL_LIB_DIR");
    if env::var_os("CARGO_FEATURE_AWL").is_none() {
        return;
    }
    let directory = env::var("AWL_LIB_DIR").expect("AWL_LIB_DIR names the library's directory");
    println!("cargo:rerun-if-changed={directory}/libawlthimble.a");
    println!("cargo:rustc-link-search=native={directory}");
    println!("cargo:rustc-link-lib=static=awlthimble");
}
