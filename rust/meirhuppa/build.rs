// The library is the archive that the proved crate is built into. MEIRHUPPA_LIB names its folder; else it is the repository's own.
fn main() {
    let here = std::env::var("CARGO_MANIFEST_DIR").expect("cargo sets it");
    let folder = std::env::var("MEIRHUPPA_LIB").unwrap_or(format!("{here}/../../target/staticlib"));
    println!("cargo:rerun-if-env-changed=MEIRHUPPA_LIB");
    // The archive is for x86-64 alone: elsewhere the crate compiles and links nothing.
    if std::env::var("CARGO_CFG_TARGET_ARCH").as_deref() == Ok("x86_64") {
        println!("cargo:rustc-link-search=native={folder}");
        println!("cargo:rustc-link-lib=static=meirhuppa");
    }
}
