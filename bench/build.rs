// Links the archive of the C judge, the views, points, texts, ellipses and arcs, and plates in C, the hops, the move, the blocks and the index, which bench/run
// makes. The proved library is linked by its bindings.
fn main() {
    let folder = std::env::var("CARGO_MANIFEST_DIR").unwrap() + "/../target/bench";
    println!("cargo:rustc-link-search=native={folder}");
    println!("cargo:rustc-link-lib=static=plain");
    println!("cargo:rerun-if-changed={folder}/libplain.a");
}
