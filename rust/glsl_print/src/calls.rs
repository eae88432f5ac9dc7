//! The three C functions, with their answers in 64 bits: the length of the text (for the question 1 or 0), or minus the sum of a
//! refusal's number times 2^32 and its place. All unsafe code is here.
//!
//! The functions of the crate's root say the same in Rust's terms. These are for a program that judges a library, also one whose
//! answers are none of these.

/// A C function that prints: settings, records, names and the room, each as a pointer and a length.
type Print = unsafe extern "C" fn(*const u8, usize, *const u8, usize, *const u8, usize, *mut u8, usize) -> i64;

// include/glsl_print.h says what they promise and what a caller owes.
unsafe extern "C" {
    fn glsl_print_unit(
        settings: *const u8,
        settings_length: usize,
        records: *const u8,
        records_length: usize,
        names: *const u8,
        names_length: usize,
        room: *mut u8,
        room_length: usize,
    ) -> i64;
    fn glsl_print_expr(
        settings: *const u8,
        settings_length: usize,
        records: *const u8,
        records_length: usize,
        names: *const u8,
        names_length: usize,
        room: *mut u8,
        room_length: usize,
    ) -> i64;
    fn glsl_joined(records: *const u8, records_length: usize, names: *const u8, names_length: usize) -> i64;
}

/// Prints a unit.
pub fn print_unit(settings: &[u8], records: &[u8], names: &[u8], room: &mut [u8]) -> i64 {
    // SAFETY: it is one of the two prints.
    unsafe { print(glsl_print_unit, settings, records, names, room) }
}

/// Prints an expression.
pub fn print_expr(settings: &[u8], records: &[u8], names: &[u8], room: &mut [u8]) -> i64 {
    // SAFETY: it is one of the two prints.
    unsafe { print(glsl_print_expr, settings, records, names, room) }
}

/// Asks whether an expression is joined.
pub fn joined(records: &[u8], names: &[u8]) -> i64 {
    // SAFETY: pointers and lengths are those of slices, which live longer than the call and are not null even if they are empty;
    // the call only reads them.
    unsafe { glsl_joined(records.as_ptr(), records.len(), names.as_ptr(), names.len()) }
}

/// Calls a print.
///
/// # Safety
///
/// The function is `glsl_print_unit` or `glsl_print_expr`.
unsafe fn print(function: Print, settings: &[u8], records: &[u8], names: &[u8], room: &mut [u8]) -> i64 {
    // SAFETY: pointers and lengths are those of slices, which live longer than the call and are not null even if they are empty.
    // The call writes to the room alone, which is lent for that and, being `&mut`, overlaps none of the others.
    unsafe {
        function(
            settings.as_ptr(),
            settings.len(),
            records.as_ptr(),
            records.len(),
            names.as_ptr(),
            names.len(),
            room.as_mut_ptr(),
            room.len(),
        )
    }
}
