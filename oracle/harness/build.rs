//! Links the static library with the record check, if the environment names one. Without it the harness is built all the same,
//! and says that it lacks it. (The library with document 01's calls is linked by the binding, rust/glsl_print.)

use std::env;
use std::path::Path;

/// The variable that names the library. A relative path counts from the repository's root.
const VARIABLE: &str = "CHECK_LIB";
/// The flag that tells the sources that it is linked.
const FLAG: &str = "check_lib";

fn main() {
    println!("cargo::rerun-if-env-changed={VARIABLE}");
    println!("cargo::rustc-check-cfg=cfg({FLAG})");
    let Some(file) = env::var_os(VARIABLE) else {
        return;
    };
    match link(&Path::new(env!("CARGO_MANIFEST_DIR")).join("../..").join(file)) {
        Ok(()) => println!("cargo::rustc-cfg={FLAG}"),
        Err(message) => println!("cargo::error={VARIABLE}: {message}"),
    }
}

/// Tells cargo to link the file.
fn link(file: &Path) -> Result<(), String> {
    let found = file.canonicalize().map_err(|error| format!("{}: {error}", file.display()))?;
    let (Some(folder), Some(name)) = (found.parent(), found.file_name()) else {
        return Err(format!("{}: no file", file.display()));
    };
    println!("cargo::rerun-if-changed={}", found.display());
    println!("cargo::rustc-link-search=native={}", folder.display());
    println!("cargo::rustc-link-lib=static:+verbatim={}", name.display());
    Ok(())
}
