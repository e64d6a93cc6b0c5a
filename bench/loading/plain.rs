//! Loads clauses into one buffer and builds their watch lists, plainly: plain VARIABLES LITERALS
use std::time::Instant;

include!("clauses.rs");

struct Watch {
    cref: u32,
    blocking: u32,
}

fn main() {
    let (count, literals) = sizes();
    let words = clauses(count, literals);
    let begun = Instant::now();
    let (mut buffer, mut crefs): (Vec<u32>, Vec<u32>) = (Vec::new(), Vec::new());
    let mut watches: Vec<Vec<Watch>> = (0..2 * count).map(|_| Vec::new()).collect();
    let mut lits = Vec::new();
    for word in &words {
        if *word != u32::MAX {
            lits.push(*word);
            continue;
        }
        crefs.push(buffer.len() as u32);
        buffer.extend_from_slice(&[0, lits.len() as u32, 0]);
        buffer.extend_from_slice(&lits);
        lits.clear();
    }
    let loading = begun.elapsed();
    let begun = Instant::now();
    for cref in &crefs {
        let at = *cref as usize;
        if buffer[at] & 1 == 0 {
            let (first, second) = (buffer[at + 3], buffer[at + 4]);
            watches[(first ^ 1) as usize].push(Watch { cref: *cref, blocking: second });
            watches[(second ^ 1) as usize].push(Watch { cref: *cref, blocking: first });
        }
    }
    let building = begun.elapsed();
    let all: usize = watches.iter().map(Vec::len).sum();
    let seen = watches.iter().flatten().fold(0, |sum, watch| sum ^ watch.cref ^ watch.blocking);
    std::hint::black_box(seen);
    println!(
        "clauses {} words {} watches {} loading {:.3} building {:.3}",
        crefs.len(),
        buffer.len(),
        all,
        loading.as_secs_f64(),
        building.as_secs_f64()
    );
}
