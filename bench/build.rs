//! Links the proved planner, which `rt lib` writes in crates/engine.

fn main() {
    let here = std::env::var("CARGO_MANIFEST_DIR").unwrap();
    println!("cargo:rustc-link-search=native={here}/../crates/engine/out");
    println!("cargo:rustc-link-lib=static=engine");
    println!("cargo:rerun-if-changed={here}/../crates/engine/out/libengine.a");
}
