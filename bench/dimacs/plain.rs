//! A plain parser of DIMACS CNF in Rust, for comparison: the same flat storage and chunks of 4,096 bytes, no proofs.
use std::io::Read;

#[derive(Default)]
struct Formula {
    lits: Vec<u32>,
    ends: Vec<usize>,
    var_count: usize,
}

fn parse(mut reader: impl Read) -> Result<Formula, u64> {
    let mut formula = Formula::default();
    let mut piece = [0u8; 4096];
    let (mut line, mut fresh, mut comment, mut header) = (1u64, true, false, false);
    let (mut inside, mut negative, mut value, mut open) = (false, false, 0u64, false);
    loop {
        let count = reader.read(&mut piece).map_err(|_| 0u64)?;
        if count == 0 {
            break;
        }
        for &byte in &piece[..count] {
            let blank = byte == b' ' || byte == b'\n' || byte == b'\t' || byte == b'\r';
            if comment || header {
                // A header is skipped: its numbers are compared with nothing.
            } else if blank {
                if inside {
                    inside = false;
                    if value == 0 {
                        formula.ends.push(formula.lits.len());
                        open = false;
                    } else if value > 1 << 28 {
                        return Err(line);
                    } else {
                        formula.var_count = formula.var_count.max(value as usize);
                        formula.lits.push(((value as u32 - 1) << 1) | negative as u32);
                        open = true;
                    }
                    negative = false;
                    value = 0;
                }
            } else if byte.is_ascii_digit() {
                inside = true;
                fresh = false;
                value = value.saturating_mul(10).saturating_add((byte - b'0') as u64);
            } else if byte == b'-' && !inside && !negative {
                negative = true;
                fresh = false;
            } else if fresh && byte == b'c' {
                comment = true;
            } else if fresh && byte == b'p' {
                header = true;
            } else {
                return Err(line);
            }
            if byte == b'\n' {
                line += 1;
                fresh = true;
                comment = false;
                header = false;
            }
        }
    }
    if inside || open { Err(line) } else { Ok(formula) }
}

fn main() {
    match parse(std::io::stdin().lock()) {
        Ok(f) => eprintln!("{} clauses, {} literals, {} variables", f.ends.len(), f.lits.len(), f.var_count),
        Err(line) => eprintln!("line {line}"),
    }
}
