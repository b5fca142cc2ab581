//! Compiles the loops in C over the header in the folder `INCLUDE`, and links the shared library in the folder `SHARED`.

include!("../benchmark/compile.rs");

fn main() {
    println!("cargo::rerun-if-env-changed=SHARED");
    let folder = std::env::var("SHARED").expect("SHARED names the folder of libwat_c.so");
    compile("../benchmark/library.c");
    println!("cargo::rerun-if-changed={folder}/libwat_c.so");
    println!("cargo::rustc-link-search=native={folder}");
    println!("cargo::rustc-link-lib=dylib=wat_c");
    println!("cargo::rustc-link-arg=-Wl,-rpath,{folder}");
}
