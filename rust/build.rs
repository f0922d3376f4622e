// Links libdgn.a, which the script archive writes: that of the folder DGN_ARCHIVE where it is set, as for an installed
// copy, else this repository's.
fn main() {
    println!("cargo:rerun-if-env-changed=DGN_ARCHIVE");
    let folder = std::env::var("DGN_ARCHIVE")
        .unwrap_or_else(|_| std::env::var("CARGO_MANIFEST_DIR").unwrap() + "/../target/staticlib");
    println!("cargo:rustc-link-search=native={folder}");
    println!("cargo:rustc-link-lib=static=dgn");
    println!("cargo:rerun-if-changed={folder}/libdgn.a");
}
