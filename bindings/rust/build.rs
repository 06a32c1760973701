//! Finds libcubesim.a: in the folder that CUBESIM_LIB names; else in ../lib, where the archive that ./dist makes has it; else in the repository's
//! target/staticlib, where `tools/staticlib` puts it.
use std::path::PathBuf;
use std::process::Command;

fn found() -> PathBuf {
    if let Ok(named) = std::env::var("CUBESIM_LIB") {
        return PathBuf::from(named);
    }
    let here = PathBuf::from(std::env::var("CARGO_MANIFEST_DIR").unwrap());
    let beside = here.join("../lib");
    if beside.join("libcubesim.a").exists() {
        return beside;
    }
    let top = here.join("../..");
    let made = top.join("target/staticlib");
    if !made.join("libcubesim.a").exists() {
        let run = Command::new(top.join("tools/staticlib")).status();
        let help = "libcubesim.a is missing: name its folder by CUBESIM_LIB, or make it by `tools/staticlib`";
        assert!(matches!(run, Ok(s) if s.success()), "{help}");
    }
    made
}

fn main() {
    println!("cargo:rerun-if-env-changed=CUBESIM_LIB");
    let folder = found();
    println!("cargo:rerun-if-changed={}", folder.join("libcubesim.a").display());
    println!("cargo:rustc-link-search=native={}", folder.display());
    println!("cargo:rustc-link-lib=static=cubesim");
}
