//! In the repository the modules of the proved source aren't beside the others. Whoever depends on the crate by the
//! repository's git address has them written here, as one file, by the script that `make rust` runs, too.
use std::{env, path::PathBuf, process::Command};

fn main() {
    println!("cargo:rustc-check-cfg=cfg(one_file)");
    println!("cargo:rerun-if-changed=build.rs");
    let [here, out] = ["CARGO_MANIFEST_DIR", "OUT_DIR"].map(|name| PathBuf::from(env::var_os(name).unwrap()));
    if here.join("src/words").exists() {
        return;
    }
    let mut script = Command::new("python3");
    script.arg(here.join("../erase.py")).arg(here.join("../../crates")).arg(out.join("modules.rs"));
    let ended = script.status().expect("python3 is needed, which writes the proved source as plain Rust");
    assert!(ended.success(), "erase.py has said why");
    println!("cargo:rerun-if-changed={}", here.join("../../crates").display());
    println!("cargo:rustc-cfg=one_file");
}
