//! The measured allocators behind one trait. A handle is what the allocator returns for a block; 0 is none.

use kruzhvela::flat::{self, Record, ANSWER_OFFSET, ANSWER_REFUSAL, RECORD_WORDS};
use std::ffi::c_void;

pub trait Allocator {
    fn allocate(&mut self, bytes: u32) -> usize;
    fn cleared(&mut self, bytes: u32) -> usize;
    fn free(&mut self, handle: usize);
    /// The new handle, or the old one if the call is refused.
    fn reallocate(&mut self, handle: usize, bytes: u32) -> usize;
}

/// The proved heap, through the functions of C.
#[derive(Clone, PartialEq, Eq)]
pub struct Kruzhvela {
    pub region: Vec<u32>,
    pub record: Record,
}

impl Kruzhvela {
    pub fn new(words: usize, table: &[u32], donor: u32, merge: bool) -> Kruzhvela {
        let mut heap = Kruzhvela { region: vec![0; words], record: [0; RECORD_WORDS] };
        let answer = flat::setup(&mut heap.region, table, donor, merge, &mut heap.record);
        assert_eq!(answer[ANSWER_REFUSAL], 0, "setup is accepted");
        heap
    }
}

impl Allocator for Kruzhvela {
    fn allocate(&mut self, bytes: u32) -> usize {
        flat::allocate(&mut self.region, &mut self.record, bytes)[ANSWER_OFFSET] as usize
    }

    fn cleared(&mut self, bytes: u32) -> usize {
        flat::allocate_cleared(&mut self.region, &mut self.record, 1, bytes)[ANSWER_OFFSET] as usize
    }

    fn free(&mut self, handle: usize) {
        flat::free(&mut self.region, &mut self.record, handle as u32);
    }

    fn reallocate(&mut self, handle: usize, bytes: u32) -> usize {
        let answer = flat::reallocate(&mut self.region, &mut self.record, handle as u32, bytes);
        if answer[ANSWER_REFUSAL] == 0 {
            answer[ANSWER_OFFSET] as usize
        } else {
            handle
        }
    }
}

/// An allocator with C's four functions.
macro_rules! c_allocator {
    ($(#[$doc:meta])* $name:ident, $malloc:ident, $calloc:ident, $free:ident, $realloc:ident) => {
        $(#[$doc])*
        pub struct $name;

        extern "C" {
            fn $malloc(bytes: usize) -> *mut c_void;
            fn $calloc(count: usize, bytes: usize) -> *mut c_void;
            fn $free(block: *mut c_void);
            fn $realloc(block: *mut c_void, bytes: usize) -> *mut c_void;
        }

        impl Allocator for $name {
            fn allocate(&mut self, bytes: u32) -> usize {
                // SAFETY: any size is permitted.
                unsafe { $malloc(bytes as usize) as usize }
            }

            fn cleared(&mut self, bytes: u32) -> usize {
                // SAFETY: any size is permitted.
                unsafe { $calloc(1, bytes as usize) as usize }
            }

            fn free(&mut self, handle: usize) {
                // SAFETY: the handle came from this allocator and is freed once.
                unsafe { $free(handle as *mut c_void) }
            }

            fn reallocate(&mut self, handle: usize, bytes: u32) -> usize {
                // SAFETY: the handle came from this allocator and was not freed.
                let moved = unsafe { $realloc(handle as *mut c_void, bytes as usize) } as usize;
                if moved == 0 {
                    handle
                } else {
                    moved
                }
            }
        }
    };
}

c_allocator!(
    /// glibc's, with memory from the system.
    Glibc, malloc, calloc, free, realloc
);

#[cfg(newlib)]
c_allocator!(
    /// newlib's full allocator, over its fixed arena.
    NewlibFull, full_malloc, full_calloc, full_free, full_realloc
);

#[cfg(newlib)]
c_allocator!(
    /// newlib's nano allocator, over its fixed arena.
    NewlibNano, nano_malloc, nano_calloc, nano_free, nano_realloc
);
