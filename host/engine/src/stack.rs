//! The stack that calls take, and threads that have it. The library keeps bounded work in local arrays, so its functions take far more
//! stack than others; docs/BUFFERS.md has the figures and the command that measures them.

use std::cell::Cell;
use std::ffi::{c_int, c_ulong, c_void};
use std::panic::resume_unwind;
use std::ptr::null_mut;
use std::thread;

/// The stack that a thread has to be made with for calls of `families_label`, or of its old way; the others likewise.
pub const LABEL: usize = 128 << 10;
pub const CLOSURE: usize = 128 << 10;
pub const LABEL_ROWS: usize = 128 << 10;
pub const PLACE_ROWS: usize = 128 << 10;
pub const KMEANS: usize = 192 << 10;
pub const GROUP: usize = 256 << 10;
pub const ROOT: usize = 128 << 10;
pub const LIST: usize = 640 << 10;
pub const WRITE_RESULT: usize = 128 << 10;
pub const RESULT_NUMBERS: usize = 128 << 10;
pub const READ_RESULT: usize = 128 << 10;

/// All of them by the names of the functions.
pub const STATED: [(&str, usize); 16] = [
    ("families_label", LABEL),
    ("families_label_old_way", LABEL),
    ("families_closure", CLOSURE),
    ("families_label_rows", LABEL_ROWS),
    ("families_label_rows_old_way", LABEL_ROWS),
    ("families_place_rows", PLACE_ROWS),
    ("families_place_rows_old_way", PLACE_ROWS),
    ("families_kmeans", KMEANS),
    ("families_kmeans_old_way", KMEANS),
    ("families_group", GROUP),
    ("families_group_old_way", GROUP),
    ("families_root", ROOT),
    ("families_list", LIST),
    ("families_write_result", WRITE_RESULT),
    ("families_result_numbers", RESULT_NUMBERS),
    ("families_read_result", READ_RESULT),
];

/// What a thread may have used of that stack before a call; the figures above leave it over.
pub const BEGUN: usize = 16 << 10;

/// The addresses of a thread's stack, from `low` up to `high`.
#[derive(Clone, Copy)]
struct Bounds {
    low: usize,
    high: usize,
}

/// Of a thread that no call may be made on.
const NONE: Bounds = Bounds { low: 0, high: 0 };

/// Of a thread that every call is made on.
const ANY: Bounds = Bounds {
    low: 0,
    high: usize::MAX,
};

thread_local! {
    /// Nothing until they are looked up, which takes a system call or more.
    static BOUNDS: Cell<Option<Bounds>> = const { Cell::new(None) };
}

/// Makes the call on this thread if it has the stack for it, and else on a thread of that much stack.
#[inline]
pub(crate) fn with<T: Send>(stack: usize, call: impl FnOnce() -> T + Send) -> T {
    if stack <= left() + BEGUN {
        call()
    } else {
        on_thread(stack, call)
    }
}

/// Makes the call on a new thread of that much stack. Calls of the library inside are made on that thread, whatever they take: one that
/// takes more than it has ends the process by a fault, since the library touches every page of its stack in turn.
#[cold]
pub fn on_thread<T: Send>(stack: usize, call: impl FnOnce() -> T + Send) -> T {
    thread::scope(|scope| {
        let begin = || {
            BOUNDS.set(Some(ANY));
            call()
        };
        let builder = thread::Builder::new().stack_size(stack);
        match builder.spawn_scoped(scope, begin) {
            Ok(thread) => thread.join().unwrap_or_else(|panic| resume_unwind(panic)),
            Err(error) => panic!("no thread of {} KiB for a call: {error}", stack >> 10),
        }
    })
}

/// How much stack is left on this thread: nothing if it is not known, or if this runs on another stack than the thread's own.
#[inline]
fn left() -> usize {
    let local = 0u8;
    let here = &raw const local as usize;
    let bounds = BOUNDS.get().unwrap_or_else(look_up);
    match bounds.low <= here && here < bounds.high {
        true => here - bounds.low,
        false => 0,
    }
}

#[cold]
fn look_up() -> Bounds {
    let bounds = told_by_system().unwrap_or(NONE);
    BOUNDS.set(Some(bounds));
    bounds
}

/// Room for the system's `pthread_attr_t`: 56 bytes on x86-64, 64 on Arm.
#[repr(C, align(16))]
struct Attributes([u8; 128]);

extern "C" {
    fn pthread_self() -> c_ulong;
    fn pthread_getattr_np(thread: c_ulong, attributes: *mut Attributes) -> c_int;
    fn pthread_attr_getstack(
        attributes: *const Attributes,
        low: *mut *mut c_void,
        size: *mut usize,
    ) -> c_int;
    fn pthread_attr_destroy(attributes: *mut Attributes) -> c_int;
}

fn told_by_system() -> Option<Bounds> {
    let mut attributes = Attributes([0; 128]);
    let (mut low, mut size) = (null_mut(), 0);
    let told = unsafe {
        pthread_getattr_np(pthread_self(), &mut attributes) == 0 && {
            let told = pthread_attr_getstack(&attributes, &mut low, &mut size) == 0;
            pthread_attr_destroy(&mut attributes);
            told
        }
    };
    told.then(|| Bounds {
        low: low as usize,
        high: low as usize + size,
    })
}

#[cfg(test)]
mod tests {
    use super::*;

    /// Whether a call that takes `needed` is made on the very thread, which is one of `stack` bytes.
    fn stays(stack: usize, needed: usize) -> bool {
        let call = move || {
            let own = thread::current().id();
            own == with(needed, || thread::current().id())
        };
        let builder = thread::Builder::new().stack_size(stack);
        builder.spawn(call).unwrap().join().unwrap()
    }

    #[test]
    fn a_call_stays_where_the_stack_is_enough() {
        for (name, stack) in STATED {
            assert!(stays(stack, stack), "{name}");
            assert!(stays(2 << 20, stack), "{name}");
        }
    }

    #[test]
    fn a_call_goes_elsewhere_where_it_is_not() {
        for (name, stack) in STATED {
            // Smaller by so much that no stack which is there already is taken for it.
            assert!(!stays(stack / 5, stack), "{name}");
        }
    }

    #[test]
    fn what_is_left_shrinks_by_what_is_used() {
        #[inline(never)]
        fn below() -> usize {
            let filled = std::hint::black_box([1u8; 40_000]);
            left() * usize::from(filled[7])
        }
        let used = left() - below();
        assert!((40_000..200_000).contains(&used), "{used}");
    }
}
