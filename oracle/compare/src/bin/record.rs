//! Records a sample of the original's answers for crate `test_replay`, to standard output:
//!
//!     record SEED COUNT
//!
//! with COUNT calls of each kind for each pair M, N up to 7, 20. The records' form is in crates/test_replay/src/main.rt.

use oracle::apply::guarded;
use oracle::generate::{Generator, KINDS};
use oracle::history::{Answer, Call, ABSENT};
use oracle::image::{Image, Key, SIZES};
use std::io::Write;

fn checksum(words: &[u32]) -> u64 {
    let (mut sum, mut sums) = (0u64, 0u64);
    for word in words {
        sum = sum.wrapping_add(u64::from(*word));
        sums = sums.wrapping_add(sum);
    }
    sums.wrapping_add(sum)
}

fn main() {
    let numbers: Vec<u64> = std::env::args().skip(1).filter_map(|text| text.parse().ok()).collect();
    let &[seed, count] = numbers.as_slice() else {
        eprintln!("usage: record SEED COUNT");
        std::process::exit(1);
    };
    let mut out = std::io::stdout().lock();
    for &(m, n) in SIZES.iter().filter(|(m, n)| *m <= 7 && *n <= 20) {
        for &(_, kind) in KINDS {
            let mut image = Image::blank(m, n).expect("one of the pairs");
            for call in Generator::new(seed, m, kind).take(count as usize + 1) {
                if matches!(call, Call::All | Call::Steps(_)) {
                    continue;
                }
                let answer = guarded(&mut image, &call);
                out.write_all(&record(&call, &answer, m, n, checksum(image.words())))
                    .expect("written");
            }
        }
    }
}

fn record(call: &Call, answer: &Answer, m: u32, n: u32, checksum: u64) -> Vec<u8> {
    let (key, value) = match call {
        Call::Insert(key, value) | Call::Write(key, value) => (*key, *value),
        Call::Remove(key) | Call::Get(key) | Call::Contains(key) | Call::Address(key) => {
            (*key, [0, 0])
        }
        _ => (0, [0, 0]),
    };
    let letter = call.to_string().as_bytes()[0];
    let (number, results) = outcome(answer);
    let mut bytes = Vec::with_capacity(96);
    for word in [u32::from(letter), m, n, number] {
        bytes.extend(word.to_le_bytes());
    }
    for wide in [
        halves(key).0,
        halves(key).1,
        value[0],
        value[1],
        results[0],
        results[1],
        results[2],
        results[3],
        checksum,
        0,
    ] {
        bytes.extend(wide.to_le_bytes());
    }
    bytes
}

fn halves(key: Key) -> (u64, u64) {
    ((key >> 64) as u64, key as u64)
}

fn outcome(answer: &Answer) -> (u32, [u64; 4]) {
    match answer {
        Answer::Done => (0, [0; 4]),
        Answer::Index(index) => (0, [u64::from(*index), 0, 0, 0]),
        Answer::Value(value) => (0, [value[0], value[1], 0, 0]),
        Answer::Count(count) => (0, [*count, 0, 0, 0]),
        Answer::Entry((key, value)) => (0, [halves(*key).0, halves(*key).1, value[0], value[1]]),
        Answer::Refused(refusal) => (*refusal as u32, [0; 4]),
        Answer::Panic => outcome(&ABSENT), // rule R6: get_addr on an empty map is the only panic of a history
        Answer::Steps(_) => unreachable!("listings are not recorded"),
    }
}
