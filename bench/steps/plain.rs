//! A plain reader and writer of proof steps in Rust, for comparison: chunks of 4,096 bytes, lists whose memory is reused, the same tests of each
//! byte, no proofs. `plain read` counts steps, `plain copy` writes each step that it reads.
use std::io::{Read, Write};

enum Fault {
    Ends,
    Bad,
}

struct Input<R> {
    reader: R,
    piece: [u8; 4096],
    at: usize,
    end: usize,
}

impl<R: Read> Input<R> {
    #[inline(always)]
    fn next(&mut self) -> Option<u8> {
        if self.at == self.end {
            self.end = self.reader.read(&mut self.piece).unwrap_or(0);
            self.at = 0;
            if self.end == 0 {
                return None;
            }
        }
        let byte = self.piece[self.at];
        self.at += 1;
        Some(byte)
    }

    /// A number no larger than `most`, in the shortest form.
    #[inline(always)]
    fn number(&mut self, most: u64) -> Result<u64, Fault> {
        let (mut value, mut place) = (0u64, 0u32);
        loop {
            let byte = self.next().ok_or(Fault::Bad)?;
            if byte == 0 && place > 0 || place > 63 {
                return Err(Fault::Bad);
            }
            let group = (byte & 127) as u64;
            if place == 63 && group > 1 {
                return Err(Fault::Bad);
            }
            value |= group << place;
            if value > most {
                return Err(Fault::Bad);
            }
            if byte < 128 {
                return Ok(value);
            }
            place += 7;
        }
    }
}

struct Output<W> {
    writer: W,
    waiting: [u8; 4096],
    len: usize,
}

impl<W: Write> Output<W> {
    #[inline(always)]
    fn put(&mut self, byte: u8) {
        if self.len == 4096 {
            self.write_out();
        }
        self.waiting[self.len] = byte;
        self.len += 1;
    }

    fn write_out(&mut self) {
        self.writer.write_all(&self.waiting[..self.len]).expect("the output is open");
        self.len = 0;
    }

    #[inline(always)]
    fn number(&mut self, mut value: u64) {
        while value >= 128 {
            self.put(value as u8 & 127 | 128);
            value >>= 7;
        }
        self.put(value as u8);
    }
}

#[derive(Default)]
struct Step {
    tag: u8,
    first: u64,
    second: u64,
    lits: Vec<u32>,
    hashes: Vec<u64>,
}

const VAR: u64 = (1 << 28) - 1;
const LIT: u64 = (1 << 29) - 1;

fn lits<R: Read>(input: &mut Input<R>, step: &mut Step) -> Result<(), Fault> {
    step.lits.clear();
    for _ in 0..input.number(u64::MAX)? {
        step.lits.push(input.number(LIT)? as u32);
    }
    Ok(())
}

fn hashes<R: Read>(input: &mut Input<R>, step: &mut Step) -> Result<(), Fault> {
    step.hashes.clear();
    for _ in 0..input.number(u64::MAX)? {
        step.hashes.push(input.number(u64::MAX)?);
    }
    Ok(())
}

fn read<R: Read>(input: &mut Input<R>, step: &mut Step) -> Result<(), Fault> {
    step.tag = input.next().ok_or(Fault::Ends)?;
    match step.tag {
        1 | 2 => {
            step.first = input.number(VAR)?;
            step.second = input.number(VAR + 1)?;
        }
        3 => step.first = input.number(VAR)?,
        4 => {
            step.first = input.number(VAR)?;
            step.second = input.number(1)?;
        }
        5 | 10 | 11 => lits(input, step)?,
        6 => {
            step.first = input.number(1)?;
            lits(input, step)?;
            hashes(input, step)?;
        }
        7 => {
            step.lits.clear();
            step.hashes.clear();
            for _ in 0..input.number(u64::MAX)? {
                step.lits.push(input.number(LIT)? as u32);
                step.hashes.push(input.number(u64::MAX)?);
            }
        }
        8 => {
            lits(input, step)?;
            step.first = input.number(2)?;
        }
        9 => step.first = input.number(64)?,
        12 => {
            lits(input, step)?;
            hashes(input, step)?;
        }
        13 => {}
        _ => return Err(Fault::Bad),
    }
    Ok(())
}

fn put_lits<W: Write>(output: &mut Output<W>, step: &Step) {
    output.number(step.lits.len() as u64);
    for lit in &step.lits {
        output.number(*lit as u64);
    }
}

fn put_hashes<W: Write>(output: &mut Output<W>, step: &Step) {
    output.number(step.hashes.len() as u64);
    for hash in &step.hashes {
        output.number(*hash);
    }
}

fn write<W: Write>(output: &mut Output<W>, step: &Step) {
    output.put(step.tag);
    match step.tag {
        1 | 2 | 4 => {
            output.number(step.first);
            output.number(step.second);
        }
        3 | 9 => output.number(step.first),
        5 | 10 | 11 => put_lits(output, step),
        6 => {
            output.number(step.first);
            put_lits(output, step);
            put_hashes(output, step);
        }
        7 => {
            output.number(step.lits.len() as u64);
            for (lit, hash) in step.lits.iter().zip(&step.hashes) {
                output.number(*lit as u64);
                output.number(*hash);
            }
        }
        8 => {
            put_lits(output, step);
            output.number(step.first);
        }
        12 => {
            put_lits(output, step);
            put_hashes(output, step);
        }
        _ => {}
    }
}

fn main() {
    let copies = std::env::args().nth(1).as_deref() == Some("copy");
    let mut input = Input { reader: std::io::stdin().lock(), piece: [0; 4096], at: 0, end: 0 };
    let mut output = Output { writer: std::io::stdout().lock(), waiting: [0; 4096], len: 0 };
    let mut step = Step::default();
    let (mut steps, mut lits, mut hashes) = (0u64, 0u64, 0u64);
    loop {
        match read(&mut input, &mut step) {
            Ok(()) => {}
            Err(Fault::Ends) => break,
            Err(Fault::Bad) => {
                eprintln!("bad byte");
                break;
            }
        }
        if copies {
            write(&mut output, &step);
        }
        steps += 1;
        if matches!(step.tag, 5..=8 | 10..=12) {
            lits += step.lits.len() as u64;
        }
        if matches!(step.tag, 6 | 7 | 12) {
            hashes += step.hashes.len() as u64;
        }
    }
    output.write_out();
    eprintln!("{steps} steps, {lits} literals, {hashes} hashes");
}
