//! Compiles the loops in C over the header in the folder `INCLUDE`. Links the static libraries of loops and for C, and the small C library of
//! Rattle's toolchain, from the folder `ARCHIVES`.

include!("compile.rs");

fn main() {
    println!("cargo::rerun-if-env-changed=ARCHIVES");
    let folder = std::env::var("ARCHIVES").expect("ARCHIVES names the folder of libwat_measure.a");
    compile("library.c");
    println!("cargo::rustc-link-search=native={folder}");
    for archive in ["wat_measure", "wat_c", "libc_c"] {
        println!("cargo::rerun-if-changed={folder}/lib{archive}.a");
        println!("cargo::rustc-link-lib=static={archive}");
    }
}
