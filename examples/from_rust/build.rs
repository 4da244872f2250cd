// Links libfalkirk.a, which lies in the folder that FALKIRK_LIB names, or in out/lib of the clone.
fn main() {
    let folder = std::env::var("FALKIRK_LIB").unwrap_or(concat!(env!("CARGO_MANIFEST_DIR"), "/../../out/lib").to_string());
    println!("cargo:rerun-if-env-changed=FALKIRK_LIB");
    println!("cargo:rerun-if-changed={folder}/libfalkirk.a");
    println!("cargo:rustc-link-search=native={folder}");
    println!("cargo:rustc-link-lib=static=falkirk");
}
