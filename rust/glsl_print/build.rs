//! Links the static library with the three C functions: the file that GLSL_LIB names, by default target/native/libglsl.a. A
//! relative path counts from the repository's root.

use std::env;
use std::path::{Path, PathBuf};

const VARIABLE: &str = "GLSL_LIB";
const DEFAULT: &str = "target/native/libglsl.a";

fn main() {
    println!("cargo::rerun-if-env-changed={VARIABLE}");
    let file = env::var_os(VARIABLE).map_or_else(|| PathBuf::from(DEFAULT), PathBuf::from);
    if let Err(message) = link(&Path::new(env!("CARGO_MANIFEST_DIR")).join("../..").join(&file)) {
        println!("cargo::error=no library {} ({message})", file.display());
        println!("cargo::error=`sh tools/staticlib.sh glsl` makes {DEFAULT}; {VARIABLE} can name another");
    }
}

/// Tells cargo to link the file.
fn link(file: &Path) -> Result<(), String> {
    // Said first, so that a file that is made later is seen.
    println!("cargo::rerun-if-changed={}", file.display());
    let found = file.canonicalize().map_err(|error| error.to_string())?;
    let (Some(folder), Some(name)) = (found.parent(), found.file_name()) else {
        return Err("not a file".to_owned());
    };
    println!("cargo::rustc-link-search=native={}", folder.display());
    println!("cargo::rustc-link-lib=static:+verbatim={}", name.display());
    Ok(())
}
