//! The stack that a call overwrites.
//!
//! The call is made on a thread of its own, whose stack is memory of this
//! module, painted with a pattern. When the thread has ended, the lowest byte
//! that lost the pattern tells how far down the stack was used. An empty call
//! made the same way is taken off. All is done once with each of two patterns,
//! and the larger figure counts, so that a byte that happens to be written as
//! one pattern shows with the other. Bytes that a call sets apart below the
//! lowest one and does not write are not seen.
//!
//! The stack is read and painted only while no thread is on it, as any other
//! memory. The standard library lets nobody choose a thread's stack, so the
//! thread is one of POSIX, and that is all that is unsafe here.

use std::ffi::{c_int, c_ulong, c_void};
use std::hint::black_box;
use std::mem::{size_of_val, MaybeUninit};
use std::ptr;

/// The bytes of a page.
const PAGE: usize = 4_096;

/// The pages of the stack: 1 MiB.
const PAGES: usize = 256;

/// The bytes kept free above a call: more than the C library uses to start a
/// thread and to end it.
const ROOM: usize = 16_384;

/// The bytes that a call can be measured to overwrite: all but the room above
/// it, as much for the thread's own, and the last page.
pub const MEASURABLE: usize = (PAGES - 1) * PAGE - 2 * ROOM;

/// The two patterns, different in every bit.
const PATTERNS: [u8; 2] = [0xA5, 0x5A];

/// A page of the stack.
#[derive(Clone)]
#[repr(C, align(4096))]
struct Page([u8; PAGE]);

/// A call to measure. It may be made by another thread.
pub type Call<'a> = &'a mut (dyn FnMut() + Send);

/// Room for a pthread_attr_t, which has 56 bytes on x86-64.
#[repr(C, align(16))]
struct Attributes([u8; 128]);

extern "C" {
    fn pthread_attr_init(attributes: *mut Attributes) -> c_int;
    fn pthread_attr_setstack(attributes: *mut Attributes, low: *mut c_void, size: usize) -> c_int;
    fn pthread_attr_destroy(attributes: *mut Attributes) -> c_int;
    fn pthread_create(
        thread: *mut c_ulong,
        attributes: *const Attributes,
        start: extern "C" fn(*mut c_void) -> *mut c_void,
        argument: *mut c_void,
    ) -> c_int;
    fn pthread_join(thread: c_ulong, result: *mut *mut c_void) -> c_int;
}

/// The bytes of stack that the call overwrites, from the first below those of
/// an empty call down to the lowest.
pub fn overwritten(call: Call) -> usize {
    let empty = reach(&mut || {});
    reach(call).checked_sub(empty).expect("an empty call overwrites least")
}

/// The bytes from the top of the stack to the lowest one that is overwritten.
/// The call is made once before, so that what it does only the first time,
/// such as finding a function of the C library, is not measured.
fn reach(call: Call) -> usize {
    call();
    let reaches = PATTERNS.map(|pattern| reach_in(pattern, call));
    reaches.into_iter().max().unwrap_or(0)
}

/// The same with one pattern.
fn reach_in(pattern: u8, call: Call) -> usize {
    let mut stack = vec![Page([pattern; PAGE]); PAGES];
    run_on(&mut stack, call);
    let bytes = stack.iter().flat_map(|page| &page.0);
    let untouched = bytes.take_while(|&&byte| byte == pattern).count();
    assert!(untouched >= PAGE, "a call needs more stack than it was given");
    PAGES * PAGE - untouched
}

/// The first function of the thread: makes the call that the argument is,
/// below what the start and the end of a thread use.
extern "C" fn start(argument: *mut c_void) -> *mut c_void {
    // SAFETY: `run_on` passes a pointer to its call and waits for this thread.
    let call = unsafe { &mut *argument.cast::<Call>() };
    let mut room = [0u8; ROOM];
    black_box(&mut room);
    call();
    black_box(&mut room);
    ptr::null_mut()
}

/// Makes the call on a thread with the given stack, and waits for it.
fn run_on(stack: &mut [Page], mut call: Call) {
    let mut attributes = MaybeUninit::<Attributes>::uninit();
    let attributes = attributes.as_mut_ptr();
    let low = stack.as_mut_ptr().cast::<c_void>();
    let argument = ptr::addr_of_mut!(call).cast::<c_void>();
    let mut thread = 0;
    // SAFETY: the attributes have room enough and are set up before they are
    // used. The stack is whole pages, lent to this function alone. The thread
    // has ended when `pthread_join` returns: until then nothing else touches
    // the stack or the call.
    unsafe {
        assert_eq!(pthread_attr_init(attributes), 0);
        assert_eq!(pthread_attr_setstack(attributes, low, size_of_val(stack)), 0);
        assert_eq!(pthread_create(&mut thread, attributes, start, argument), 0);
        assert_eq!(pthread_join(thread, ptr::null_mut()), 0);
        assert_eq!(pthread_attr_destroy(attributes), 0);
    }
}

#[cfg(test)]
mod tests {
    use super::*;

    /// Writes an array of so many bytes on the stack.
    #[inline(never)]
    fn fill<const BYTES: usize>() {
        black_box(&mut [1u8; BYTES]);
    }

    #[test]
    fn an_empty_call_overwrites_nothing() {
        assert_eq!(overwritten(&mut || {}), 0);
    }

    #[test]
    fn an_array_is_seen_whole_and_little_else() {
        let measured = [overwritten(&mut fill::<100>), overwritten(&mut fill::<30_000>)];
        assert!((100..300).contains(&measured[0]), "{measured:?}");
        assert!((30_000..30_200).contains(&measured[1]), "{measured:?}");
    }

    #[test]
    fn an_array_full_of_a_pattern_is_seen() {
        for pattern in PATTERNS {
            let measured = overwritten(&mut || {
                black_box(&mut [pattern; 30_000]);
            });
            assert!((30_000..30_200).contains(&measured), "{measured}");
        }
    }
}
