//! Documents 000 and 001, compiled as they stand from the folder that `GLSL_LANG_SRC` names (see build.rs).
//!
//! The paths of the modules are those that 000 asks for: `crate::ast` and `crate::transpiler::glsl`.

include!(concat!(env!("OUT_DIR"), "/modules.rs"));
