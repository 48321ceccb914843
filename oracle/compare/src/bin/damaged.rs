//! Makes calls on damaged images: each ends, a refusal changes nothing, and where the port does not refuse, the original loaded with the same words gives the same answer and words:
//!
//!     damaged SEED COUNT
//!
//! with COUNT damaged images for each pair M, N up to 256, 512; all calls are made on each.

use compare::damage::damage;
use compare::grow::grow;
use compare::port::Port;
use oracle::apply::{apply, guarded};
use oracle::generate::Random;
use oracle::history::{Answer, Call, ABSENT};
use oracle::image::{Image, Key, SIZES};
use std::process::ExitCode;

#[derive(Default)]
struct Tally {
    images: usize,
    calls: usize,
    refused: usize,
    accepted: usize,
}

fn main() -> ExitCode {
    let numbers: Vec<u64> = std::env::args().skip(1).filter_map(|text| text.parse().ok()).collect();
    let &[seed, count] = numbers.as_slice() else {
        eprintln!("usage: damaged SEED COUNT");
        return ExitCode::FAILURE;
    };
    let mut images = 0;
    for &(m, n) in SIZES.iter().filter(|(_, n)| *n <= 512) {
        let tally = run(seed, count as usize, m, n);
        println!("damaged: M {m} N {n}: {} images, {} calls, {} refused, {} images accepted by the check", tally.images, tally.calls, tally.refused, tally.accepted);
        images += tally.images;
    }
    println!("damaged: {images} images, no difference");
    ExitCode::SUCCESS
}

fn run(seed: u64, count: usize, m: u32, n: u32) -> Tally {
    let mut random = Random::new(seed ^ u64::from(n));
    let mut tally = Tally::default();
    let mut good = Image::blank(m, n).expect("one of the pairs");
    let mut other = Image::blank(m, n).expect("one of the pairs");
    let mut keys: Vec<Key> = Vec::new();
    while tally.images < count {
        if tally.images % 50 == 0 {
            keys = grow(&mut random, &mut good, m, n);
        }
        let mut words = good.words().to_vec();
        damage(&mut random, &mut words, m, n);
        tally.images += 1;
        let mut scratch = vec![9; m as usize];
        tally.accepted += usize::from(Port { words: &mut words, m, n }.check(&mut scratch) == 0);
        for call in calls(&mut random, &keys) {
            tally.calls += 1;
            tally.refused += usize::from(one(&words, &mut other, m, n, &call));
        }
    }
    tally
}

fn calls(random: &mut Random, keys: &[Key]) -> Vec<Call> {
    let key = random.pick(keys);
    let fresh = key ^ 1 << random.below(128);
    let value = [random.word(), random.word()];
    vec![
        Call::Get(key),
        Call::Contains(fresh),
        Call::Address(key),
        Call::Write(key, value),
        Call::Insert(key, value),
        Call::Insert(fresh, value),
        Call::Remove(key),
        Call::Remove(fresh),
        Call::Length,
        Call::Capacity,
        Call::Smallest,
        Call::Largest,
        Call::Start,
    ]
}

/// Whether the port refused; panics on a difference.
fn one(before: &[u32], original: &mut Image, m: u32, n: u32, call: &Call) -> bool {
    let mut words = before.to_vec();
    let answer = Port { words: &mut words, m, n }.apply(call).expect("no listing");
    if let Answer::Refused(_) = answer {
        assert!(words == before, "{call} refused and changed a word");
        if answer != ABSENT {
            return true;
        }
    }
    if *call == Call::Start {
        return true;
    }
    original.load(before);
    let expected = if answer == ABSENT { absent(original, call) } else { apply(original, call) };
    assert_eq!(answer, expected, "{call} on {before:?}");
    assert!(words == original.words(), "{call}: words differ on {before:?}");
    answer == ABSENT
}

/// The original's answer, with the rules' for get_addr on an empty map.
fn absent(original: &mut Image, call: &Call) -> Answer {
    match (guarded(original, call), call) {
        (Answer::Panic, Call::Address(_)) => ABSENT,
        (answer, _) => answer,
    }
}
