//! Makes generated histories on the original and on the port from blank memory, and compares every answer, index and word after every call:
//!
//!     histories SEED COUNT
//!
//! with COUNT calls of each kind for each pair M, N. After every call the full check must accept the port's image.

use compare::port::Port;
use oracle::apply::guarded;
use oracle::generate::{Generator, Kind, KINDS};
use oracle::history::{Answer, Call, ABSENT};
use oracle::image::{Image, SIZES};
use std::process::ExitCode;

fn main() -> ExitCode {
    let numbers: Vec<u64> = std::env::args().skip(1).filter_map(|text| text.parse().ok()).collect();
    let &[seed, count] = numbers.as_slice() else {
        eprintln!("usage: histories SEED COUNT");
        return ExitCode::FAILURE;
    };
    let mut total = 0;
    for &(m, n) in SIZES {
        for &(name, kind) in KINDS {
            let calls = compare(seed, count as usize, m, n, kind);
            println!("histories: M {m} N {n} {name}: {calls} calls agree in every answer and word");
            total += calls;
        }
    }
    println!("histories: {total} calls, no difference");
    ExitCode::SUCCESS
}

fn compare(seed: u64, count: usize, m: u32, n: u32, kind: Kind) -> usize {
    let mut original = Image::blank(m, n).expect("one of the pairs");
    let mut words = original.words().to_vec();
    let mut scratch = vec![7; m as usize];
    let mut calls = 0;
    for call in Generator::new(seed, m, kind).take(count + 1) {
        if matches!(call, Call::All | Call::Steps(_)) {
            continue;
        }
        let mut port = Port { words: &mut words, m, n };
        let answer = port.apply(&call).expect("no listing");
        let mut expected = guarded(&mut original, &call);
        if expected == Answer::Panic && matches!(call, Call::Address(_)) {
            expected = ABSENT; // rule R6: get_addr on an empty map
        }
        assert_eq!(answer, expected, "M {m} N {n}, call {calls}: {call}");
        assert!(words == original.words(), "M {m} N {n}, call {calls}: {call}: words differ");
        if n <= 512 || calls % 64 == 0 {
            let port = Port { words: &mut words, m, n };
            assert_eq!(port.check(&mut scratch), 0, "M {m} N {n}, call {calls}: the check refuses");
            assert!(scratch.iter().all(|word| *word == 0), "the scratch is not zero");
        }
        calls += 1;
    }
    calls
}
