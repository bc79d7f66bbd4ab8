//! Links the archive that KAMRDUCH_ARCHIVE names, and to `bench` the pass that it is measured against.
use std::path::Path;
use std::process::Command;

const PASS: &str = "../../tests/pass.c";

/// Compiles the pass under a name, with these flags beside -O3, by CC, or by cc where that is not set.
fn pass(name: &str, flags: &[&str]) {
    let compiler = std::env::var("CC").unwrap_or_else(|_| "cc".to_string());
    let object = Path::new(&std::env::var("OUT_DIR").expect("cargo sets OUT_DIR")).join(format!("{name}.o"));
    let mut words = compiler.split_whitespace();
    let mut command = Command::new(words.next().expect("CC names a C compiler"));
    command
        .args(words)
        .args(["-std=c11", "-O3", &format!("-DPASS={name}")])
        .args(flags)
        .args(["-c", PASS, "-o"])
        .arg(&object);
    let wrong = match command.status() {
        Ok(done) if done.success() => return println!("cargo:rustc-link-arg-bin=bench={}", object.display()),
        Ok(done) => done.to_string(),
        Err(error) => error.to_string(),
    };
    eprintln!("tests/pass.c is not compiled, by {compiler} (CC names another C compiler): {wrong}");
    std::process::exit(1);
}

fn main() {
    println!("cargo:rerun-if-env-changed=KAMRDUCH_ARCHIVE");
    let archive = std::env::var("KAMRDUCH_ARCHIVE").expect("KAMRDUCH_ARCHIVE is the path of libhost.a");
    println!("cargo:rerun-if-changed={archive}");
    println!("cargo:rustc-link-search=native={}", Path::new(&archive).parent().unwrap().display());
    println!("cargo:rustc-link-lib=static=host");
    println!("cargo:rerun-if-env-changed=CC");
    println!("cargo:rerun-if-changed={PASS}");
    pass("pass_over", &[]);
    pass("pass_by_words", &["-fno-tree-vectorize"]);
}
