//! Links the proved unit, which `rt lib --cpu x86-64` in crates/capi writes to its out/.
fn main() {
    let dir = std::path::Path::new(env!("CARGO_MANIFEST_DIR")).join("../../crates/capi/out");
    println!("cargo:rustc-link-search=native={}", dir.display());
    println!("cargo:rustc-link-lib=static=capi");
    println!("cargo:rerun-if-changed={}", dir.join("libcapi.a").display());
}
