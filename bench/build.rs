// Links the static library that `(cd crates/yithrel && rt lib)` writes: that comes first.
fn main() {
    let root = std::env::var("CARGO_MANIFEST_DIR").expect("the manifest's folder");
    println!("cargo:rustc-link-search=native={root}/../crates/yithrel/out");
    println!("cargo:rustc-link-lib=static=yithrel");
    println!("cargo:rerun-if-changed={root}/../crates/yithrel/out/libyithrel.a");
}
