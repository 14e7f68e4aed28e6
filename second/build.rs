// Where the proved code's archives lie, for the programs that link one: `tools/staticlib NAME` writes them there.
fn main() {
    let root = std::env::var("CARGO_MANIFEST_DIR").expect("cargo names the crate's folder");
    println!("cargo:rustc-link-search=native={root}/../target/staticlib");
    println!("cargo:rerun-if-changed={root}/../target/staticlib");
}
