//! How much stack a call takes: it runs in a thread whose stack is bytes of ours, painted before. Those that still have
//! their paint behind it were not needed.

use std::ffi::{c_int, c_void};
use std::ptr;

/// The stack's bytes: far more than any call needs.
const SIZE: usize = 1 << 21;
/// Where a stack may begin.
const ALIGNMENT: usize = 4_096;
const PAINT: u8 = 0x5a;

/// More than the C library's attributes of a thread take on any machine.
#[repr(C, align(16))]
struct Attributes([u8; 256]);

type Start = extern "C" fn(*mut c_void) -> *mut c_void;

extern "C" {
    fn pthread_attr_init(attributes: *mut Attributes) -> c_int;
    fn pthread_attr_setstack(attributes: *mut Attributes, stack: *mut c_void, size: usize) -> c_int;
    fn pthread_create(thread: *mut usize, attributes: *const Attributes, start: Start, run: *mut c_void) -> c_int;
    fn pthread_join(thread: usize, result: *mut *mut c_void) -> c_int;
}

/// The bytes of stack that a run takes, beyond those of an empty one.
pub fn need(run: &dyn Fn()) -> usize {
    touched(run) - touched(&|| ())
}

/// The bytes from the top of the stack to the last one that lost its paint.
fn touched(run: &dyn Fn()) -> usize {
    let mut bytes = vec![PAINT; SIZE + ALIGNMENT];
    let start = bytes.as_ptr().align_offset(ALIGNMENT);
    let stack = &mut bytes[start..start + SIZE];
    in_thread(stack, run);
    SIZE - stack.iter().take_while(|&&byte| byte == PAINT).count()
}

/// Runs in a thread with this stack, and waits for its end.
fn in_thread(stack: &mut [u8], mut run: &dyn Fn()) {
    extern "C" fn start(run: *mut c_void) -> *mut c_void {
        // SAFETY: the pointer below is to a `&dyn Fn()`, which lives until this thread has ended.
        let run = unsafe { &*run.cast::<&dyn Fn()>() };
        run();
        ptr::null_mut()
    }
    let mut attributes = Attributes([0; 256]);
    let mut thread = 0;
    // SAFETY: as the C library asks: attributes that are initialized, a stack that is aligned and outlives the thread, which is
    // joined here, and that nobody else uses meanwhile.
    let codes = unsafe {
        [
            pthread_attr_init(&mut attributes),
            pthread_attr_setstack(&mut attributes, stack.as_mut_ptr().cast(), stack.len()),
            pthread_create(&mut thread, &attributes, start, ptr::from_mut(&mut run).cast()),
            pthread_join(thread, ptr::null_mut()),
        ]
    };
    assert_eq!(codes, [0; 4], "a thread is made and ends");
}

#[cfg(test)]
mod tests {
    use super::*;
    use std::hint::black_box;

    #[test]
    fn an_array_takes_its_bytes() {
        let large = need(&|| {
            // Lent, not given: what is given is copied where nothing is optimized.
            let array = [1_u8; 100_000];
            black_box(&array);
        });
        assert!((99_000..101_000).contains(&large), "{large}");
    }
}
