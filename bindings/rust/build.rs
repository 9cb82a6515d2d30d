//! Finds librtheap.a: in the folder that RTHEAP_LIB_DIR names, or where pkg-config says.
use std::env;
use std::process::Command;

fn folder() -> Option<String> {
    if let Ok(folder) = env::var("RTHEAP_LIB_DIR") {
        return Some(folder);
    }
    let said = Command::new("pkg-config")
        .args(["--variable=libdir", "rtheap"])
        .output()
        .ok()?;
    let folder = String::from_utf8(said.stdout).ok()?.trim().to_owned();
    (!folder.is_empty()).then_some(folder)
}

fn main() {
    println!("cargo:rerun-if-env-changed=RTHEAP_LIB_DIR");
    match folder() {
        Some(folder) => println!("cargo:rustc-link-search=native={folder}"),
        None => println!("cargo:warning=librtheap.a was not found: set RTHEAP_LIB_DIR"),
    }
    let lent = env::var_os("CARGO_FEATURE_LENT").is_some();
    let name = if lent { "rtheap_lent" } else { "rtheap" };
    println!("cargo:rustc-link-lib=static={name}");
}
