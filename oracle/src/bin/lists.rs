//! Makes generated histories on the original and on the ascending list, and compares the answers:
//!
//!     lists SEED COUNT
//!
//! with COUNT calls of each kind for each pair M, N. It also reads each call back from its text.

use oracle::apply::guarded;
use oracle::generate::{Generator, Kind, KINDS};
use oracle::history::{Answer, Call, FULL};
use oracle::image::{Image, SIZES};
use oracle::list::List;
use std::process::ExitCode;

#[derive(Default)]
struct Tally {
    calls: usize,
    full: usize,
    panics: usize,
}

fn main() -> ExitCode {
    let numbers: Vec<u64> = std::env::args().skip(1).filter_map(|text| text.parse().ok()).collect();
    let &[seed, count] = numbers.as_slice() else {
        eprintln!("usage: lists SEED COUNT");
        return ExitCode::FAILURE;
    };
    for &(m, n) in SIZES {
        for &(name, kind) in KINDS {
            let Tally { calls, full, panics } = compare(seed, count as usize, m, n, kind);
            print!("lists: M {m} N {n} {name}: {calls} calls agree, ");
            println!("{full} full, {panics} panics of get_addr");
        }
    }
    ExitCode::SUCCESS
}

fn compare(seed: u64, count: usize, m: u32, n: u32, kind: Kind) -> Tally {
    let mut image = Image::blank(m, n).expect("one of the pairs");
    let mut list = List::new(m);
    let mut tally = Tally::default();
    for call in Generator::new(seed, m, kind).take(count + 1) {
        let answer = guarded(&mut image, &call);
        assert!(list.agrees(&call, &answer), "call {}: {call} answered {answer}", tally.calls);
        assert_eq!(call.to_string().parse::<Call>().as_ref(), Ok(&call));
        tally.calls += 1;
        tally.full += usize::from(answer == FULL);
        tally.panics += usize::from(answer == Answer::Panic);
    }
    tally
}
