//! Changes that damage an image: bits, words, swapped links, bent chains, shared value records.

use oracle::generate::Random;

/// Makes one to three random changes to an image of n nodes and m value records.
pub fn damage(random: &mut Random, words: &mut [u32], m: u32, n: u32) {
    for _ in 0..1 + random.below(3) {
        change(random, words, m as usize, n as usize);
    }
}

/// One random change.
pub fn change(random: &mut Random, words: &mut [u32], m: usize, n: usize) {
    let node = |random: &mut Random| 8 + 12 * random.below(n);
    let value = |random: &mut Random| 12 + 12 * n + 8 * random.below(m);
    let header = [0, 1, 2, 3, 4, 5, 6, 7, 12 * n + 8, 12 * n + 9, 12 * n + 10, 12 * n + 11];
    match random.below(9) {
        0 => words[random.below(words.len())] ^= 1 << random.below(32),
        1 => words[random.below(words.len())] = random.below(2 * n) as u32,
        2 => words[header[random.below(12)]] ^= 1 << random.below(6),
        3 => words[header[random.below(12)]] = random.below(n + 2) as u32,
        4 => {
            let at = node(random);
            words.swap(at, at + 1);
        }
        5 => words[node(random) + random.below(4)] = random.below(n + 2) as u32,
        6 => {
            let (from, to) = (node(random), node(random));
            words[to + 3] = words[from + 3];
        }
        7 => words[value(random) + random.below(4)] = random.below(m + 2) as u32,
        _ => {
            let (from, to) = (node(random), node(random));
            for k in 0..12 {
                words[to + k] = words[from + k];
            }
        }
    }
}
