//! Finds documents 000 and 001 and writes the two `mod` lines that compile them where they lie, unchanged.

use std::env;
use std::fs;
use std::path::{Path, PathBuf};

/// Names the folder that holds the sources; a relative path counts from the repository's root.
const VARIABLE: &str = "GLSL_LANG_SRC";
/// Where the sources lie when the variable is not set.
const DEFAULT: &str = "../shared/docs/src";
/// Document 001, the tree.
const AST: &str = "lang-types/src/ast.rs";
/// Document 000, the printer.
const GLSL: &str = "lang/src/transpiler/glsl.rs";

fn main() {
    println!("cargo::rerun-if-env-changed={VARIABLE}");
    // 001 asks for this feature around its serde derives; the oracle never has it.
    println!(r#"cargo::rustc-check-cfg=cfg(feature, values("serde"))"#);
    if let Err(message) = write_modules() {
        println!("cargo::error={message}");
    }
}

/// Writes `modules.rs`, which `lib.rs` includes.
fn write_modules() -> Result<(), String> {
    let folder = source_folder()?;
    let modules = format!(
        "/// Document 001: the tree.\n#[path = {:?}]\npub mod ast;\n\n\
         /// The printers of upstream; here the one for GLSL.\npub mod transpiler {{\n    \
         /// Document 000: the printer.\n    #[path = {:?}]\n    pub mod glsl;\n}}\n",
        found(&folder, AST)?,
        found(&folder, GLSL)?,
    );
    let target = PathBuf::from(variable("OUT_DIR")?).join("modules.rs");
    fs::write(&target, modules).map_err(|error| format!("{}: {error}", target.display()))
}

/// The folder of the sources.
fn source_folder() -> Result<PathBuf, String> {
    let root = Path::new(&variable("CARGO_MANIFEST_DIR")?).join("../..");
    Ok(root.join(env::var(VARIABLE).unwrap_or_else(|_| DEFAULT.to_owned())))
}

/// The full path of a source; an error in one line when it is absent.
fn found(folder: &Path, file: &str) -> Result<PathBuf, String> {
    let path = folder.join(file);
    println!("cargo::rerun-if-changed={}", path.display());
    path.canonicalize().map_err(|_| {
        format!(
            "the Rust module is absent: no file {} (set {VARIABLE} to the folder that holds {file})",
            path.display()
        )
    })
}

/// A variable that cargo sets.
fn variable(name: &str) -> Result<String, String> {
    env::var(name).map_err(|error| format!("{name}: {error}"))
}
