// Compiles cut.c twice: into the tests, where it stands between the command and the C library, and as a library that is
// loaded before the program dgn.
use std::process::Command;

fn main() {
    println!("cargo:rerun-if-changed=cut.c");
    let out = std::env::var("OUT_DIR").unwrap();
    let run = |program: &str, arguments: &[&str]| {
        let status = Command::new(program).args(arguments).status();
        assert!(status.is_ok_and(|status| status.success()), "{program} {arguments:?}");
    };
    let (object, archive, library) = (format!("{out}/cut.o"), format!("{out}/libcut.a"), format!("{out}/cut.so"));
    run("gcc", &["-O1", "-Wall", "-Wextra", "-Werror", "-fPIC", "-c", "-o", &object, "cut.c"]);
    run("ar", &["rcs", &archive, &object]);
    run("gcc", &["-shared", "-o", &library, &object]);
    println!("cargo:rustc-link-search=native={out}");
    println!("cargo:rustc-link-lib=static=cut");
    println!("cargo:rustc-env=CUT_LIBRARY={library}");
}
