//! Times the original and the port on the same inputs, by turns, on one core:
//!
//!     bench ROUNDS
//!
//! 4,096 random keys, M 4,096, N 8,192. Lookup: 8,192 lookups of which half are present; insert: all keys into an
//! empty map; remove: all keys, in another order; a whole listing from the front, through the original's iterator.
//! Both images are read before each turn, and which side goes first changes from round to round. Each round gives one
//! ratio, the port's time by the original's; the median is printed, and the ratio of the least times of all rounds.
//! The check is a ratio to one plain read of the image's words. One round is what bench/counts has callgrind count.

use compare::port::Port;
use oracle::generate::Random;
use oracle::image::{Entry, Image, Key, Value};
use std::hint::black_box;
use std::time::Instant;

const M: u32 = 4096;
const N: u32 = 8192;

// ---- the turns

fn port_lookup(port: &mut Port, asked: &[Key]) {
    for key in asked {
        black_box(port.get(*key));
    }
}

fn port_insert(port: &mut Port, entries: &[Entry]) {
    for (key, value) in entries {
        black_box(port.insert(*key, *value));
    }
}

fn port_remove(port: &mut Port, entries: &[Entry]) {
    for (key, _) in entries {
        black_box(port.remove(*key));
    }
}

fn port_listing(port: &mut Port) -> (u64, Entry) {
    port.list_all()
}

// bench/counts finds the next four by their names in callgrind's profile.

#[no_mangle]
#[inline(never)]
fn original_lookup(image: &mut Image, asked: &[Key]) {
    let map = image.map();
    for key in asked {
        black_box(map.get(*key));
    }
}

#[no_mangle]
#[inline(never)]
fn original_insert(image: &mut Image, entries: &[Entry]) {
    let map = image.map();
    for (key, value) in entries {
        black_box(map.insert(*key, *value));
    }
}

#[no_mangle]
#[inline(never)]
fn original_remove(image: &mut Image, entries: &[Entry]) {
    let map = image.map();
    for (key, _) in entries {
        black_box(map.remove(*key));
    }
}

/// As `Port::list_all`: how many entries, and the exclusive or of their keys and values.
#[no_mangle]
#[inline(never)]
fn original_listing(image: &mut Image) -> (u64, Entry) {
    let (mut count, mut all): (u64, Entry) = (0, (0, [0; 2]));
    for (key, value) in image.map().listing() {
        count += 1;
        all.0 ^= key;
        all.1[0] ^= value[0];
        all.1[1] ^= value[1];
    }
    (count, all)
}

/// One plain read of an image's words.
#[inline(never)]
fn read(words: &[u32]) -> u64 {
    words.iter().map(|word| u64::from(*word)).sum()
}

// ---- time

/// The seconds of one kind of turn, a pair for each round: the port's and the original's.
#[derive(Default)]
struct Times(Vec<(f64, f64)>);

impl Times {
    fn median(&self, of: impl Fn(&(f64, f64)) -> f64) -> f64 {
        let mut all: Vec<f64> = self.0.iter().map(of).collect();
        all.sort_by(f64::total_cmp);
        all[all.len() / 2]
    }

    fn least(&self, of: impl Fn(&(f64, f64)) -> f64) -> f64 {
        self.0.iter().map(of).fold(f64::INFINITY, f64::min)
    }

    fn median_ratio(&self) -> f64 {
        self.median(|(port, original)| port / original)
    }

    fn least_ratio(&self) -> f64 {
        self.least(|pair| pair.0) / self.least(|pair| pair.1)
    }

    /// The original's median, in nanoseconds, of a turn that makes so many calls.
    fn nanoseconds(&self, calls: u32) -> f64 {
        self.median(|pair| pair.1) * 1e9 / f64::from(calls)
    }

    /// `unit` is what one of the turn's calls is to the reader.
    fn print(&self, name: &str, calls: u32, unit: &str) {
        println!(
            "{name}: {:.2} times the original ({:.0} ns {unit} there), {:.2} by the least times",
            self.median_ratio(),
            self.nanoseconds(calls),
            self.least_ratio()
        );
    }
}

fn seconds<A>(work: impl FnOnce() -> A) -> (f64, A) {
    let start = Instant::now();
    let answer = work();
    (start.elapsed().as_secs_f64(), answer)
}

/// One map on both sides, and whether the port's turn comes first.
struct Sides {
    words: Vec<u32>,
    image: Image,
    port_first: bool,
}

impl Sides {
    fn started(port_first: bool) -> Sides {
        let mut image = Image::blank(M, N).expect("built in");
        image.map().start();
        let words = image.words().to_vec();
        image.load(&words); // as the port's words, all of it has been written: no turn is the first to write a page
        Sides { words, image, port_first }
    }

    /// Reads both images, the port's last, and times the port's turn.
    fn port<A>(&mut self, turn: impl FnOnce(&mut Port) -> A) -> (f64, A) {
        black_box(read(self.image.words()));
        black_box(read(&self.words));
        let mut port = Port { words: &mut self.words, m: M, n: N };
        seconds(|| turn(&mut port))
    }

    /// Reads both images, the original's last, and times the original's turn.
    fn original<A>(&mut self, turn: impl FnOnce(&mut Image) -> A) -> (f64, A) {
        black_box(read(&self.words));
        black_box(read(self.image.words()));
        seconds(|| turn(&mut self.image))
    }

    /// A turn of each side, timed; their answers.
    fn turns<A, B>(
        &mut self,
        times: &mut Times,
        port: impl FnOnce(&mut Port) -> A,
        original: impl FnOnce(&mut Image) -> B,
    ) -> (A, B) {
        let (ours, theirs);
        if self.port_first {
            ours = self.port(port);
            theirs = self.original(original);
        } else {
            theirs = self.original(original);
            ours = self.port(port);
        }
        times.0.push((ours.0, theirs.0));
        (ours.1, theirs.1)
    }

    fn agree(&self) -> bool {
        self.words == self.image.words()
    }
}

// ---- rounds

fn drawn(random: &mut Random) -> Vec<Entry> {
    let value = |random: &mut Random| -> Value { [random.word(), random.word()] };
    (0..M).map(|_| (random.key(), value(random))).collect()
}

fn shuffled<T>(random: &mut Random, mut things: Vec<T>) -> Vec<T> {
    for i in (1..things.len()).rev() {
        things.swap(i, random.below(i + 1));
    }
    things
}

/// The keys of the entries and as many others, in random order.
fn questions(random: &mut Random, entries: &[Entry]) -> Vec<Key> {
    let mut asked: Vec<Key> = entries.iter().map(|entry| entry.0).collect();
    asked.extend((0..M).map(|_| random.key()));
    shuffled(random, asked)
}

#[derive(Default)]
struct Rounds {
    lookup: Times,
    insert: Times,
    remove: Times,
    listing: Times,
    check: Times,
}

impl Rounds {
    fn round(&mut self, random: &mut Random, port_first: bool) {
        let mut sides = Sides::started(port_first);
        let entries = drawn(random);
        sides.turns(
            &mut self.insert,
            |port| port_insert(port, &entries),
            |image| original_insert(image, &entries),
        );
        assert!(sides.agree());

        let asked = questions(random, &entries);
        sides.turns(
            &mut self.lookup,
            |port| port_lookup(port, &asked),
            |image| original_lookup(image, &asked),
        );

        let mut scratch = vec![0; M as usize];
        let (number, _) = sides.turns(
            &mut self.check,
            |port| port.check(&mut scratch),
            |image| black_box(read(image.words())),
        );
        assert_eq!(number, 0);

        let (ours, theirs) = sides.turns(&mut self.listing, port_listing, original_listing);
        assert_eq!(ours, theirs);
        assert_eq!(ours.0, u64::from(M));

        let order = shuffled(random, entries);
        sides.turns(
            &mut self.remove,
            |port| port_remove(port, &order),
            |image| original_remove(image, &order),
        );
        assert!(sides.agree());
        assert_eq!(sides.image.map().length(), 0);
    }

    fn print(&self) {
        self.lookup.print("lookup", 2 * M, "a call");
        self.insert.print("insert", M, "a call");
        self.remove.print("remove", M, "a call");
        self.listing.print("whole listing", M, "an entry");
        println!(
            "full check: {:.1} times one plain read of the image's words ({:.0} ns the read), {:.1} by the least times",
            self.check.median_ratio(),
            self.check.nanoseconds(1),
            self.check.least_ratio()
        );
    }
}

fn main() {
    let count = std::env::args().nth(1).and_then(|text| text.parse().ok()).unwrap_or(101);
    let mut random = Random::new(2026);
    let mut rounds = Rounds::default();
    for round in 0..count {
        rounds.round(&mut random, round % 2 == 0);
    }
    rounds.print();
    println!("medians of {count} rounds");
}
