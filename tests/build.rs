// Links the engine's archive, which `rt lib` writes in crates/console.
fn main() {
    let root = std::path::Path::new(env!("CARGO_MANIFEST_DIR")).join("..");
    let lib = root.join("crates/console/out");
    println!("cargo:rustc-link-search=native={}", lib.display());
    println!("cargo:rustc-link-lib=static=console");
    println!("cargo:rerun-if-changed={}", lib.join("libconsole.a").display());
}
