//! Links libplanner_c.a: from the folder that PLANNER_LIB names, or from the one that `rt lib` in crates/planner_c writes to.
use std::env::{var, var_os};
use std::path::{Path, PathBuf};

const WRITTEN_TO: &str = "../../crates/planner_c/out";

fn main() {
    println!("cargo::rerun-if-env-changed=PLANNER_LIB");
    match library_folder() {
        Ok(folder) => {
            println!("cargo::rerun-if-changed={}", folder.join("libplanner_c.a").display());
            println!("cargo::rustc-link-search=native={}", folder.display());
            println!("cargo::rustc-link-lib=static=planner_c");
        }
        Err(missing) => println!("cargo::error={missing}"),
    }
}

/// The folder that has the library, or in words what is missing.
fn library_folder() -> Result<PathBuf, String> {
    let is = |name: &str, wanted: &str| var(name).is_ok_and(|value| value == wanted);
    if !is("CARGO_CFG_TARGET_ARCH", "x86_64") || is("CARGO_CFG_TARGET_OS", "windows") {
        return Err("libplanner_c.a is made for x86-64 with the System V C ABI, and this target has another".to_string());
    }
    let lent = var_os("PLANNER_LIB");
    let folder = lent.as_ref().map_or(Path::new(WRITTEN_TO), Path::new);
    if !folder.join("libplanner_c.a").is_file() {
        let remedy = match lent {
            Some(_) => "PLANNER_LIB has to name the folder that libplanner_c.a is in",
            None => "run `rt lib` in crates/planner_c first, or name its folder by PLANNER_LIB",
        };
        return Err(format!("there is no libplanner_c.a in {}: {remedy}", folder.display()));
    }
    folder.canonicalize().map_err(|error| format!("{}: {error}", folder.display()))
}
