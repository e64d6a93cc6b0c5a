/// Returns clauses of 3 to 10 different variables out of `count`, as codes of literals with the end after each clause, with `literals`
/// literals or a few more.
fn clauses(count: u32, literals: usize) -> Vec<u32> {
    let mut x = 1u64;
    let mut random = |below: u32| {
        x = x.wrapping_mul(6364136223846793005).wrapping_add(1442695040888963407);
        ((x >> 33) % u64::from(below)) as u32
    };
    let (mut words, mut written) = (Vec::new(), 0);
    while written < literals {
        let from = words.len();
        let len = 3 + random(8) as usize;
        while words.len() < from + len {
            let lit = random(2 * count);
            if words[from..].iter().all(|other| other >> 1 != lit >> 1) {
                words.push(lit);
            }
        }
        words.push(u32::MAX);
        written += len;
    }
    words
}

/// The two arguments: how many variables, and how many literals.
fn sizes() -> (u32, usize) {
    let mut numbers = std::env::args().skip(1).map(|word| word.parse::<usize>().expect("a number"));
    (numbers.next().expect("variables") as u32, numbers.next().expect("literals"))
}
