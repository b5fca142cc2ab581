/// Compiles a C file of loops to an archive, with the compiler named by `CC` or with `cc`, and links it.
fn compile(source: &str) {
    println!("cargo::rerun-if-env-changed=INCLUDE");
    println!("cargo::rerun-if-changed={source}");
    let include = std::env::var("INCLUDE").expect("INCLUDE names the folder of wat.h");
    let out = std::env::var("OUT_DIR").expect("cargo names a folder");
    let (object, archive) = (format!("{out}/loops.o"), format!("{out}/libloops.a"));
    let compiler = std::env::var("CC").unwrap_or_else(|_| "cc".into());
    let run = |program: &str, words: &[&str]| {
        let status = std::process::Command::new(program).args(words).status();
        assert!(status.is_ok_and(|status| status.success()), "{program} fails");
    };
    let include = format!("-I{include}");
    run(&compiler, &["-std=c99", "-O2", "-fPIC", &include, "-c", "-o", &object, source]);
    run("ar", &["rcs", &archive, &object]);
    println!("cargo::rustc-link-search=native={out}");
    println!("cargo::rustc-link-lib=static=loops");
}
