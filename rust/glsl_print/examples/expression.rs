//! Prints n - --k, which once left the desk as n---k: readers take that for n-- - k. EXPORT keeps the space that is needed.

use glsl_print::{joined, print_expr, record, Refused, EXPORT, OPEN, TIGHT};

fn main() -> Result<(), Refused> {
    // Records in preorder: kind, variant, count, a, b.
    let records = [
        record(8, 15, 0, 0, 0), // a binary minus of what follows:
        record(1, 0, 0, 0, 1),  // the variable whose name stands at 0 and has 1 byte,
        record(7, 1, 0, 0, 0),  // and the unary -- of
        record(1, 0, 0, 1, 1),  // the variable whose name stands at 1.
    ]
    .concat();
    let names = b"nk";
    let mut room = [0; 64];

    println!("OPEN: {}", print_expr(&OPEN, &records, names, &mut room)?);
    println!("TIGHT: {}", print_expr(&TIGHT, &records, names, &mut room)?);
    println!("EXPORT: {}", print_expr(&EXPORT, &records, names, &mut room)?);
    println!("joined: {}", if joined(&records, names)? { "yes" } else { "no" });
    // The place of this refusal is the length needed.
    if let Err(refused) = print_expr(&OPEN, &records, names, &mut room[..6]) {
        println!("OPEN in 6 bytes: {refused}");
    }
    Ok(())
}
