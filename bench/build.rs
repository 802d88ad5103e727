//! Links the static library of `host`, which `run/bench` builds.

fn main() {
    let out = concat!(env!("CARGO_MANIFEST_DIR"), "/../crates/host/out");
    println!("cargo:rustc-link-search=native={out}");
    println!("cargo:rustc-link-lib=static=host");
    println!("cargo:rerun-if-changed={out}/libhost.a");
}
