//! Calls a library that loads clauses and builds their watch lists: drive VARIABLES LITERALS
use std::ffi::c_void;

include!("clauses.rs");

#[global_allocator]
static ALLOCATOR: std::alloc::System = std::alloc::System;

extern "C" {
    fn load_clauses(count: usize, words: *const u32, len: usize, counts: *mut u64, counts_len: usize) -> u64;
    fn malloc(size: usize) -> *mut c_void;
    fn realloc(block: *mut c_void, size: usize) -> *mut c_void;
    fn free(block: *mut c_void);
}

/// What an allocation answers.
#[repr(C)]
pub struct Tried {
    ok: bool,
    block: *mut c_void,
}

fn tried(block: *mut c_void) -> Tried {
    Tried { ok: !block.is_null(), block }
}

#[no_mangle]
pub unsafe extern "C" fn rattle_alloc(size: usize, _align: usize) -> Tried {
    tried(malloc(size.max(1)))
}

#[no_mangle]
pub unsafe extern "C" fn rattle_realloc(block: *mut c_void, _kept: usize, size: usize, _align: usize) -> Tried {
    tried(realloc(block, size.max(1)))
}

#[no_mangle]
pub unsafe extern "C" fn rattle_dealloc(block: *mut c_void) {
    free(block)
}

fn main() {
    let (count, literals) = sizes();
    let words = clauses(count, literals);
    let mut counts = [0u64; 5];
    match unsafe { load_clauses(count as usize, words.as_ptr(), words.len(), counts.as_mut_ptr(), counts.len()) } {
        0 => println!(
            "clauses {} words {} watches {} loading {:.3} building {:.3}",
            counts[0], counts[1], counts[2], counts[3] as f64 / 1e6, counts[4] as f64 / 1e6
        ),
        _ => println!("no memory"),
    }
}
