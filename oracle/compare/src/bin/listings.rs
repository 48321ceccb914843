//! Compares listings with the original's iterator:
//!
//!     listings SEED COUNT
//!
//! - every interleaving of the two ends on COUNT small maps of up to six keys;
//! - COUNT random interleavings on large maps;
//! - B and all 128 powers of two, whose longest path is 129 nodes, from both ends;
//! - COUNT positions that outlived inserts and removes, and COUNT damaged images: as long as the port does not refuse, the original's iterator gives the same.

use compare::damage::damage;
use compare::grow::grow;
use compare::port::{Port, Position};
use oracle::generate::Random;
use oracle::history::{Answer, ABSENT};
use oracle::image::{Image, Key, Listing};
use std::process::ExitCode;

/// The sides of a run of steps: true is the back.
type Sides = Vec<bool>;

fn main() -> ExitCode {
    let numbers: Vec<u64> = std::env::args().skip(1).filter_map(|text| text.parse().ok()).collect();
    let &[seed, count] = numbers.as_slice() else {
        eprintln!("usage: listings SEED COUNT");
        return ExitCode::FAILURE;
    };
    let mut random = Random::new(seed);
    let count = count as usize;
    println!("listings: {} listings of small maps, every interleaving", small(&mut random, count));
    println!("listings: {} listings of large maps", large(&mut random, count));
    println!("listings: {} listings of B and all powers of two", deepest(&mut random, count));
    let (steps, refused) = outlived(&mut random, count);
    println!("listings: {count} positions that outlived a change, {steps} steps alike, {refused} positions refused");
    let (steps, refused) = damaged(&mut random, count);
    println!("listings: {count} damaged images, {steps} steps alike, {refused} listings refused");
    println!("listings: no difference");
    ExitCode::SUCCESS
}

// ---- one listing

fn original_step(listing: &mut Listing, back: bool) -> Answer {
    let entry = if back { listing.next_back() } else { listing.next() };
    entry.map_or(ABSENT, |(key, value)| Answer::Entry((*key, *value)))
}

/// Steps both to the end; panics on a difference.
fn alike(image: &mut Image, m: u32, n: u32, sides: &Sides) {
    let mut words = image.words().to_vec();
    let port = Port { words: &mut words, m, n };
    let (made, mut position) = port.list();
    assert_eq!(made, Answer::Done);
    let mut listing = image.map().listing();
    for (at, back) in sides.iter().enumerate() {
        let answer = port.step(&mut position, *back);
        assert_eq!(
            answer,
            original_step(&mut listing, *back),
            "M {m} N {n}: step {at} of {sides:?}"
        );
    }
}

fn sides_from(bits: usize, length: usize) -> Sides {
    (0..length).map(|k| bits >> k & 1 == 1).collect()
}

fn random_sides(random: &mut Random, length: usize) -> Sides {
    let tide = 1 + random.below(9);
    (0..length).map(|_| random.below(10) < tide).collect()
}

// ---- the maps

fn small(random: &mut Random, count: usize) -> usize {
    let mut listings = 0;
    for _ in 0..count {
        let (m, n) = random.pick(&[(2, 4), (4, 8), (8, 16), (7, 20)]);
        let mut image = Image::blank(m, n).expect("one of the pairs");
        image.map().start();
        for _ in 0..random.below(7) {
            let key = close_key(random);
            image.map().insert(key, [random.word(), random.word()]);
        }
        let length = image.map().length() as usize + 2;
        for bits in 0..1 << length {
            alike(&mut image, m, n, &sides_from(bits, length));
            listings += 1;
        }
    }
    listings
}

/// A key that shares many bits with others.
fn close_key(random: &mut Random) -> Key {
    match random.below(3) {
        0 => random.below(16) as Key,
        1 => 1 << random.below(128),
        _ => (random.key() >> 120) << random.below(121),
    }
}

fn large(random: &mut Random, count: usize) -> usize {
    for k in 0..count {
        let (m, n) = if k % 64 == 0 { (4096, 8192) } else { (256, 512) };
        let mut image = Image::blank(m, n).expect("one of the pairs");
        grow(random, &mut image, m, n);
        let length = image.map().length() as usize + random.below(20);
        let sides = random_sides(random, length);
        if started(&mut image) {
            alike(&mut image, m, n, &sides);
        }
    }
    count
}

fn started(image: &mut Image) -> bool {
    image.words().iter().any(|word| *word != 0)
}

fn deepest(random: &mut Random, count: usize) -> usize {
    let (m, n) = (256, 512);
    let mut image = Image::blank(m, n).expect("one of the pairs");
    image.map().start();
    let mut keys: Vec<Key> = (0..128).map(|k| 1 << k).collect();
    keys.push(0);
    for (k, key) in keys.iter().enumerate() {
        image.map().insert(*key, [k as u64, 7]);
    }
    alike(&mut image, m, n, &vec![false; 131]);
    alike(&mut image, m, n, &vec![true; 131]);
    for _ in 0..count {
        let sides = random_sides(random, 132);
        alike(&mut image, m, n, &sides);
    }
    count + 2
}

// ---- positions that outlived a change

fn outlived(random: &mut Random, count: usize) -> (usize, usize) {
    let (mut steps, mut refused) = (0, 0);
    for k in 0..count {
        let (m, n) = if k % 8 == 0 { (256, 512) } else { random.pick(&[(4, 8), (8, 16), (7, 20)]) };
        let mut image = Image::blank(m, n).expect("one of the pairs");
        let keys = grow(random, &mut image, m, n);
        if !started(&mut image) {
            continue;
        }
        let (passed, broke) = outlive(random, &mut image, m, n, &keys);
        steps += passed;
        refused += usize::from(broke);
    }
    (steps, refused)
}

/// How many steps gave the same, and whether the port refused in the end.
fn outlive(random: &mut Random, image: &mut Image, m: u32, n: u32, keys: &[Key]) -> (usize, bool) {
    let lent: *mut Image = image;
    // Safety: none that Rust would grant. The original's iterator holds the map while the map is changed below it, as C code could do; it reads the map's words anew at each step.
    let mut listing = unsafe { (*lent).map().listing() };
    let position = {
        let mut words = unsafe { (*lent).words().to_vec() };
        Port { words: &mut words, m, n }.list().1
    };
    let mut position: Position = position;
    for step in 0..3 * m as usize + 8 {
        if random.below(3) == 0 {
            let key = random.pick(keys);
            let map = unsafe { (*lent).map() };
            if random.below(2) == 0 {
                map.insert(key, [random.word(), random.word()]);
            } else {
                map.remove(key);
            }
        }
        let back = random.below(2) == 0;
        let mut words = unsafe { (*lent).words().to_vec() };
        let before = position.clone();
        let answer = Port { words: &mut words, m, n }.step(&mut position, back);
        if let Answer::Refused(_) = answer {
            if answer != ABSENT {
                assert_eq!(position, before, "a refusal moved the position");
                return (step, true);
            }
        }
        assert_eq!(
            answer,
            original_step(&mut listing, back),
            "M {m} N {n}: step {step} after a change"
        );
    }
    (3 * m as usize + 8, false)
}

// ---- damaged images

fn damaged(random: &mut Random, count: usize) -> (usize, usize) {
    let (mut steps, mut refused) = (0, 0);
    let (mut m, mut n) = (4, 8);
    let mut good = Image::blank(m, n).expect("one of the pairs");
    for k in 0..count {
        if k % 20 == 0 {
            (m, n) = random.pick(&[(4, 8), (8, 16), (7, 20), (256, 512)]);
            grow(random, &mut good, m, n);
        }
        let mut words = good.words().to_vec();
        damage(random, &mut words, m, n);
        let mut image = Image::blank(m, n).expect("one of the pairs");
        image.load(&words);
        let (passed, broke) = walked(random, &mut image, &mut words, m, n);
        steps += passed;
        refused += usize::from(broke);
    }
    (steps, refused)
}

/// How many steps gave the same, and whether the port refused in the end.
fn walked(
    random: &mut Random,
    image: &mut Image,
    words: &mut [u32],
    m: u32,
    n: u32,
) -> (usize, bool) {
    let port = Port { words, m, n };
    let (made, mut position) = port.list();
    if made != Answer::Done {
        return (0, true);
    }
    let mut listing = image.map().listing();
    let length = 2 * m as usize + 4;
    for step in 0..length {
        let back = random.below(3) == 0;
        let answer = port.step(&mut position, back);
        if matches!(answer, Answer::Refused(_)) && answer != ABSENT {
            return (step, true);
        }
        assert_eq!(
            answer,
            original_step(&mut listing, back),
            "M {m} N {n}: step {step} on a damaged image"
        );
    }
    (length, false)
}
