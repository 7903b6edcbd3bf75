//! Links libpespbench.a, as tools/install puts it in place: from the folder of the environment's PESPBENCH_LIB, else from
//! the one that pkg-config knows.

use std::env;
use std::process::Command;

fn folder() -> Option<String> {
    if let Ok(folder) = env::var("PESPBENCH_LIB") {
        return Some(folder);
    }
    let told = Command::new("pkg-config").args(["--variable=libdir", "pespbench"]).output().ok()?;
    let folder = String::from_utf8(told.stdout).ok()?.trim().to_string();
    (told.status.success() && !folder.is_empty()).then_some(folder)
}

fn main() {
    println!("cargo:rerun-if-env-changed=PESPBENCH_LIB");
    if let Some(folder) = folder() {
        println!("cargo:rustc-link-search=native={folder}");
    }
    println!("cargo:rustc-link-lib=static=pespbench");
}
