//! Writes a formula in DIMACS CNF of about the given number of bytes: clauses of three literals over a million variables.
use std::io::{BufWriter, Write};

fn main() {
    let bytes: usize = std::env::args().nth(1).and_then(|a| a.parse().ok()).unwrap_or(100_000_000);
    let mut out = BufWriter::with_capacity(1 << 16, std::io::stdout().lock());
    let mut state = 0x9E37_79B9_7F4A_7C15u64;
    let mut next = move || {
        state ^= state << 13;
        state ^= state >> 7;
        state ^= state << 17;
        state
    };
    let mut written = 0;
    out.write_all(b"c a formula to measure by\np cnf 1000000 4500000\n").unwrap();
    while written < bytes {
        let mut line = String::new();
        for _ in 0..3 {
            let x = next();
            let sign = if x & 1 == 1 { "-" } else { "" };
            line.push_str(&format!("{}{} ", sign, 1 + (x >> 1) % 1_000_000));
        }
        line.push_str("0\n");
        written += line.len();
        out.write_all(line.as_bytes()).unwrap();
    }
}
