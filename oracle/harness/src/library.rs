//! The libraries' functions. An answer is 64 bits (01, "Calls"). Static libraries are linked, and a function is absent where the
//! harness was built without its library; a shared one, with another build's functions of the same names, is loaded.

use oracle::answer::{Question, Root};
use std::ffi::{c_char, c_int, c_void, CStr, CString};
use std::mem::transmute;

/// The record check: a question's records and names.
pub type Check = fn(&Question) -> i64;

/// A print of a question into a room.
pub type Print = fn(&Question, &mut [u8]) -> i64;

/// The record check, with the number of records for a good tree. (Not one of document 01's calls: for trying the check
/// by itself.)
pub const CHECK: Option<Check> = check::LINKED;

/// Document 01's calls.
pub const CALLS: Option<Calls> = glsl::LINKED;

/// Document 01's calls.
#[derive(Clone, Copy)]
pub struct Calls {
    unit: Print,
    expr: Print,
    /// The joined question.
    pub joined: Check,
}

impl Calls {
    /// The print of a root.
    pub fn print(&self, root: Root) -> Print {
        match root {
            Root::Unit => self.unit,
            Root::Expr => self.expr,
        }
    }
}

/// Document 01's calls of another build, from a shared library that is loaded while the harness runs and stays loaded.
#[derive(Clone, Copy)]
pub struct Loaded {
    unit: PrintFunction,
    expr: PrintFunction,
    joined: JoinedFunction,
}

/// A C function that prints: settings, records, names and the room, each as a pointer and a length.
type PrintFunction = unsafe extern "C" fn(*const u8, usize, *const u8, usize, *const u8, usize, *mut u8, usize) -> i64;

/// The C function for the joined question: records and names, each as a pointer and a length.
type JoinedFunction = unsafe extern "C" fn(*const u8, usize, *const u8, usize) -> i64;

/// All of the library's own calls are bound before the first is timed, as those of a linked library are. (Linux's numbers.)
const RTLD_NOW: c_int = 2;
/// Its names are found through its handle alone, so they hide none of ours.
const RTLD_LOCAL: c_int = 0;

extern "C" {
    fn dlopen(file: *const c_char, flags: c_int) -> *mut c_void;
    fn dlsym(library: *mut c_void, name: *const c_char) -> *mut c_void;
    fn dlerror() -> *const c_char;
}

impl Loaded {
    /// Loads a shared library; an error is a message for the user.
    pub fn open(path: &str) -> Result<Self, String> {
        // The whole path: a file name alone would be looked for in the system's folders.
        let file = std::fs::canonicalize(path).map_err(|error| format!("{path}: {error}"))?;
        let file =
            CString::new(file.into_os_string().into_encoded_bytes()).map_err(|error| format!("{path}: {error}"))?;
        // SAFETY: the path ends with a zero. That the library's own start does no harm is the user's to know, who named it.
        let library = unsafe { dlopen(file.as_ptr(), RTLD_NOW | RTLD_LOCAL) };
        if library.is_null() {
            return Err(loading_error());
        }
        let find = |name: &CStr| {
            // SAFETY: the handle is of a loaded library, and the name ends with a zero.
            let found = unsafe { dlsym(library, name.as_ptr()) };
            if found.is_null() {
                Err(loading_error())
            } else {
                Ok(found)
            }
        };
        let (unit, expr, joined) = (find(c"glsl_print_unit")?, find(c"glsl_print_expr")?, find(c"glsl_joined")?);
        // SAFETY: that the library is a build of this project is the user's to know, who named it: then functions of these names
        // have the types that include/glsl_print.h says. It is never unloaded.
        Ok(unsafe {
            Self {
                unit: transmute::<*mut c_void, PrintFunction>(unit),
                expr: transmute::<*mut c_void, PrintFunction>(expr),
                joined: transmute::<*mut c_void, JoinedFunction>(joined),
            }
        })
    }

    /// Prints a question into a room.
    pub fn print(&self, root: Root, question: &Question, room: &mut [u8]) -> i64 {
        let Question { settings, records, names, .. } = question;
        let call = match root {
            Root::Unit => self.unit,
            Root::Expr => self.expr,
        };
        // SAFETY: pointers and lengths are those of slices that outlive the call. It writes to the room alone, which overlaps none
        // of the others.
        unsafe {
            call(
                settings.as_ptr(),
                settings.len(),
                records.as_ptr(),
                records.len(),
                names.as_ptr(),
                names.len(),
                room.as_mut_ptr(),
                room.len(),
            )
        }
    }

    /// Asks the joined question.
    pub fn joined(&self, question: &Question) -> i64 {
        let Question { records, names, .. } = question;
        // SAFETY: pointers and lengths are those of slices that outlive the call, which only reads them.
        unsafe { (self.joined)(records.as_ptr(), records.len(), names.as_ptr(), names.len()) }
    }
}

/// What the loader says of its last failure.
fn loading_error() -> String {
    // SAFETY: the loader's text ends with a zero, and it is copied before another call to the loader.
    let message = unsafe {
        let message = dlerror();
        (!message.is_null()).then(|| CStr::from_ptr(message).to_string_lossy().into_owned())
    };
    message.unwrap_or_else(|| "a function of the shared library lies at 0".to_owned())
}

#[cfg(check_lib)]
mod check {
    use super::{Check, Question, Root};

    extern "C" {
        fn accept_unit(records: *const u8, records_length: usize, names: *const u8, names_length: usize) -> i64;
        fn accept_expr(records: *const u8, records_length: usize, names: *const u8, names_length: usize) -> i64;
    }

    pub const LINKED: Option<Check> = Some(|question| {
        let Question { root, records, names, .. } = question;
        let call = match root {
            Root::Unit => accept_unit,
            Root::Expr => accept_expr,
        };
        // SAFETY: pointers and lengths are those of slices that outlive the call, which only reads them.
        unsafe { call(records.as_ptr(), records.len(), names.as_ptr(), names.len()) }
    });
}

#[cfg(not(check_lib))]
mod check {
    pub const LINKED: Option<super::Check> = None;
}

/// Through the binding, in its form of 64 bits: that hands on whatever the library says, so that each slip is a difference here.
#[cfg(feature = "glsl")]
mod glsl {
    use super::{Calls, Question};
    use glsl_print::calls;

    pub const LINKED: Option<Calls> = Some(Calls {
        unit: |Question { settings, records, names, .. }, room| calls::print_unit(settings, records, names, room),
        expr: |Question { settings, records, names, .. }, room| calls::print_expr(settings, records, names, room),
        joined: |Question { records, names, .. }| calls::joined(records, names),
    });
}

#[cfg(not(feature = "glsl"))]
mod glsl {
    pub const LINKED: Option<super::Calls> = None;
}

#[cfg(test)]
mod tests {
    use super::*;

    #[test]
    fn what_cannot_be_loaded_is_told() {
        // No file, and one that is no library.
        for path in ["no/such.so", "Cargo.toml"] {
            let message = Loaded::open(path).err().unwrap_or_default();
            assert!(message.contains(path), "{message}");
        }
    }
}
