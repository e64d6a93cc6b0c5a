//! Reads a formula in DIMACS CNF, and calls a library that runs rounds of unit propagation over it: drive FORMULA ROUNDS
//!
//! Repeated literals and tautologies are left out, as in any loader. It prints decisions, conflicts, full assignments, assigned literals, and
//! the seconds of the rounds, then those of loading.
use std::ffi::c_void;

#[global_allocator]
static ALLOCATOR: std::alloc::System = std::alloc::System;

extern "C" {
    fn propagation_rounds(count: usize, words: *const u32, len: usize, rounds: u64, counts: *mut u64, counts_len: usize) -> u64;
    fn malloc(size: usize) -> *mut c_void;
    fn realloc(block: *mut c_void, size: usize) -> *mut c_void;
    fn free(block: *mut c_void);
}

/// What an allocation answers.
#[repr(C)]
pub struct Tried {
    ok: bool,
    block: *mut c_void,
}

fn tried(block: *mut c_void) -> Tried {
    Tried { ok: !block.is_null(), block }
}

#[no_mangle]
pub unsafe extern "C" fn rattle_alloc(size: usize, _align: usize) -> Tried {
    tried(malloc(size.max(1)))
}

#[no_mangle]
pub unsafe extern "C" fn rattle_realloc(block: *mut c_void, _kept: usize, size: usize, _align: usize) -> Tried {
    tried(realloc(block, size.max(1)))
}

#[no_mangle]
pub unsafe extern "C" fn rattle_dealloc(block: *mut c_void) {
    free(block)
}

/// Returns the codes of the literals of each clause, sorted, with the mark after it, and the number of variables.
fn read(text: &str) -> (Vec<u32>, usize) {
    let (mut words, mut count, mut from) = (Vec::new(), 0, 0);
    for line in text.lines().filter(|line| !line.starts_with(['c', 'p'])) {
        for number in line.split_ascii_whitespace() {
            let number: i32 = number.parse().expect("a number");
            if number != 0 {
                count = count.max(number.unsigned_abs());
                words.push(2 * (number.unsigned_abs() - 1) + u32::from(number < 0));
                continue;
            }
            let mut clause = words.split_off(from);
            clause.sort_unstable();
            clause.dedup();
            if clause.windows(2).all(|pair| pair[0] ^ 1 != pair[1]) {
                words.append(&mut clause);
                words.push(u32::MAX);
            }
            from = words.len();
        }
    }
    (words, count as usize)
}

fn main() {
    let arguments: Vec<String> = std::env::args().collect();
    let (words, count) = read(&std::fs::read_to_string(&arguments[1]).expect("a formula"));
    let rounds = arguments[2].parse().expect("a number of rounds");
    let mut counts = [0u64; 6];
    match unsafe { propagation_rounds(count, words.as_ptr(), words.len(), rounds, counts.as_mut_ptr(), counts.len()) } {
        0 => println!("units conflict"),
        1 => println!(
            "decisions {} conflicts {} full {} assigned {} seconds {:.3} loading {:.3}",
            counts[0], counts[1], counts[2], counts[3], counts[5] as f64 / 1e6, counts[4] as f64 / 1e6
        ),
        _ => println!("no memory"),
    }
}
