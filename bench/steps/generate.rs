//! Writes a certificate of about the given number of bytes: input clauses, derived clauses with the hashes of their reasons, and deletions, with
//! pseudorandom literals. Its steps are well-formed, but not accepted: it serves to measure readers and writers.
use std::io::{BufWriter, Write};

fn number(out: &mut Vec<u8>, mut value: u64) {
    while value >= 128 {
        out.push(value as u8 & 127 | 128);
        value >>= 7;
    }
    out.push(value as u8);
}

fn main() {
    let wanted: usize = std::env::args().nth(1).and_then(|word| word.parse().ok()).unwrap_or(30_000_000);
    let mut writer = BufWriter::new(std::io::stdout().lock());
    let mut seed = 0x2545_f491_4f6c_dd1du64;
    let mut random = move |below: u64| {
        seed ^= seed << 13;
        seed ^= seed >> 7;
        seed ^= seed << 17;
        (seed >> 11) % below
    };
    let (mut written, mut step) = (0, Vec::new());
    while written < wanted {
        step.clear();
        let kind = random(10);
        if kind < 3 {
            step.push(5);
            number(&mut step, 3);
            for _ in 0..3 {
                number(&mut step, random(20_000));
            }
        } else if kind < 7 {
            step.extend([6, 1]);
            let lits = 2 + random(30);
            number(&mut step, lits);
            for _ in 0..lits {
                number(&mut step, random(20_000));
            }
            let hashes = 1 + random(40);
            number(&mut step, hashes);
            for _ in 0..hashes {
                number(&mut step, random(1 << 34));
            }
        } else {
            step.push(8);
            let lits = 2 + random(30);
            number(&mut step, lits);
            for _ in 0..lits {
                number(&mut step, random(20_000));
            }
            number(&mut step, 0);
        }
        writer.write_all(&step).expect("the output is open");
        written += step.len();
    }
    writer.write_all(&[13]).expect("the output is open");
}
