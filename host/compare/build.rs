//! Links the exports of the parts, which `rt lib --cpu x86-64` in crates/bench writes to its out/.
fn main() {
    let dir = std::path::Path::new(env!("CARGO_MANIFEST_DIR")).join("../../crates/bench/out");
    println!("cargo:rustc-link-search=native={}", dir.display());
    println!("cargo:rustc-link-lib=static=bench");
    println!("cargo:rerun-if-changed={}", dir.join("libbench.a").display());
}
