//! Compares the full check with a second, independent reading of the rules (`rules.rs`) on damaged images, most of them by a single change:
//!
//!     checks SEED COUNT
//!
//! with COUNT images for each pair M, N up to 256, 512. After every check the scratch's first M words are zero, and the others are kept.

use compare::damage::{change, damage};
use compare::grow::grow;
use compare::port::Port;
use compare::rules;
use oracle::generate::Random;
use oracle::image::{Image, SIZES};
use std::process::ExitCode;

fn main() -> ExitCode {
    let numbers: Vec<u64> = std::env::args().skip(1).filter_map(|text| text.parse().ok()).collect();
    let &[seed, count] = numbers.as_slice() else {
        eprintln!("usage: checks SEED COUNT");
        return ExitCode::FAILURE;
    };
    let mut images = 0;
    for &(m, n) in SIZES.iter().filter(|(_, n)| *n <= 512) {
        let accepted = run(seed, count as usize, m, n);
        println!("checks: M {m} N {n}: {count} images, {accepted} accepted by both");
        images += count;
    }
    println!("checks: {images} images, no difference");
    ExitCode::SUCCESS
}

fn run(seed: u64, count: usize, m: u32, n: u32) -> usize {
    let mut random = Random::new(seed ^ u64::from(n) << 8);
    let mut good = Image::blank(m, n).expect("one of the pairs");
    let mut accepted = 0;
    for k in 0..count {
        if k % 50 == 0 {
            grow(&mut random, &mut good, m, n);
            accepted += usize::from(agree(&mut good.words().to_vec(), m, n));
        }
        let mut words = good.words().to_vec();
        if random.below(4) == 0 {
            damage(&mut random, &mut words, m, n);
        } else {
            change(&mut random, &mut words, m as usize, n as usize);
        }
        accepted += usize::from(agree(&mut words, m, n));
    }
    accepted
}

/// Whether both accept; panics on a difference.
fn agree(words: &mut [u32], m: u32, n: u32) -> bool {
    let before = words.to_vec();
    let mut scratch: Vec<u32> = (0..m + 3).map(|k| 7 * k + 1).collect();
    let number = Port { words, m, n }.check(&mut scratch);
    let expected = rules::accepted(&before, m, n);
    assert_eq!(number == 0, expected, "M {m} N {n}: the check answers {number} on {before:?}");
    assert!(number == 0 || number == 2, "the shape is right, and the check answers {number}");
    assert!(words == before, "the check changed a word");
    for (k, word) in scratch.iter().enumerate() {
        let left = if k < m as usize { 0 } else { 7 * k as u32 + 1 };
        assert_eq!(*word, left, "the scratch's word {k}");
    }
    expected
}
