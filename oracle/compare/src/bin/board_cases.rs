//! Records cases for the C test of the board's calls, to standard output:
//!
//!     board_cases SEED
//!
//! Images that the original made in histories from blank memory, the same images damaged, and for each what lookup and the full check answer. The expectations stand on `rules`, an
//! independent reading of the rules; a lookup that meets no damage is also asked of the original, on the same words. The form of the file is in board_test/board_test.c.

use compare::damage::damage;
use compare::rules::{accepted, lookup, ABSENT, DAMAGED};
use oracle::apply::{apply, guarded};
use oracle::generate::{Generator, Random, KINDS};
use oracle::history::{Answer, Call};
use oracle::image::{Image, Key};
use std::collections::BTreeSet;
use std::io::Write;

const END: u32 = 0;
const IMAGE: u32 = 1;
const CASE: u32 = 2;

/// The file so far; and how many images, checks, accepting checks and lookups it has.
struct Cases {
    random: Random,
    out: Vec<u32>,
    tally: [usize; 4],
}

fn main() {
    let seed = std::env::args().nth(1).and_then(|text| text.parse().ok());
    let Some(seed) = seed else {
        eprintln!("usage: board_cases SEED");
        std::process::exit(1);
    };
    let mut cases = Cases { random: Random::new(seed), out: Vec::new(), tally: [0; 4] };
    for (m, n, images, damaged) in
        [(1, 2, 6, 15), (2, 4, 6, 15), (4, 8, 8, 20), (8, 16, 8, 30), (7, 20, 8, 30)]
    {
        cases.blank(m, n);
        for _ in 0..images {
            let (image, keys) = cases.grow(m, n, 6 * m as usize + 4);
            cases.image(image, &keys, damaged, false);
        }
    }
    let (image, keys) = bench_example();
    cases.image(image, &keys, 40, true);
    let (image, keys) = deepest();
    cases.image(image, &keys, 60, false);
    let (image, keys) = cases.grow(256, 512, 700);
    cases.image(image, &keys, 60, false);
    let (image, keys) = cases.grow(4096, 8192, 300);
    cases.image(image, &keys, 20, false);
    cases.out.push(END);
    let bytes: Vec<u8> = cases.out.iter().flat_map(|word| word.to_le_bytes()).collect();
    std::io::stdout().write_all(&bytes).expect("written");
    let [images, checked, sound, looked] = cases.tally;
    eprintln!("board_cases: {images} images, {checked} checks of which {sound} accept, {looked} lookups, {} bytes", bytes.len());
}

fn put_wide(out: &mut Vec<u32>, wide: u64) {
    out.extend([wide as u32, (wide >> 32) as u32]);
}

/// The rules' bench example: A, B and C, then A removed, with M 4 and N 8.
fn bench_example() -> (Image, Vec<Key>) {
    let mut image = Image::blank(4, 8).expect("one of the pairs");
    let keys = [1 << 127, 0, 1];
    apply(&mut image, &Call::Start);
    for (key, value) in keys.into_iter().zip(1..) {
        apply(&mut image, &Call::Insert(key, [value, u64::MAX - value]));
    }
    apply(&mut image, &Call::Remove(keys[0]));
    (image, keys.to_vec())
}

/// B and all 128 powers of two: B's path is 129 nodes.
fn deepest() -> (Image, Vec<Key>) {
    let mut image = Image::blank(256, 512).expect("one of the pairs");
    let keys: Vec<Key> = std::iter::once(0).chain((0..128).map(|bit| 1 << bit)).collect();
    apply(&mut image, &Call::Start);
    for (key, value) in keys.iter().zip(1..) {
        apply(&mut image, &Call::Insert(*key, [value, value << 32]));
    }
    (image, keys)
}

impl Cases {
    /// The image of a random history, and the keys that it used.
    fn grow(&mut self, m: u32, n: u32, most: usize) -> (Image, Vec<Key>) {
        let mut image = Image::blank(m, n).expect("one of the pairs");
        let (_, kind) = KINDS[self.random.below(KINDS.len())];
        let length = 1 + self.random.below(most);
        let mut keys = BTreeSet::new();
        for call in Generator::new(self.random.word(), m, kind).take(length) {
            if let Call::Insert(key, _) = &call {
                keys.insert(*key);
            }
            if !matches!(call, Call::All | Call::Steps(_)) {
                guarded(&mut image, &call);
            }
        }
        (image, keys.into_iter().collect())
    }

    /// Blank memory: it was never started, so it is damaged.
    fn blank(&mut self, m: u32, n: u32) {
        let mut image = Image::blank(m, n).expect("one of the pairs");
        self.base(&image);
        self.case(&mut image, &[], &[0, Key::MAX]);
    }

    /// An image with all keys that were used and as many others; then so many times damaged, or also each of its words changed in turn.
    fn image(&mut self, mut image: Image, keys: &[Key], damaged: usize, each_word: bool) {
        let (m, n) = (image.layout().m, image.layout().n);
        let good = image.words().to_vec();
        assert!(accepted(&good, m, n), "the original's image is accepted");
        self.base(&image);
        let mut asked = keys.to_vec();
        asked.truncate(140);
        for place in 0..asked.len() {
            let other = asked[place] ^ 1 << self.random.below(128);
            asked.push(other);
        }
        asked.push(self.random.key());
        self.case(&mut image, &[], &asked);
        for _ in 0..damaged {
            let mut words = good.clone();
            damage(&mut self.random, &mut words, m, n);
            self.damaged(&mut image, &good, &words, &asked);
        }
        if each_word {
            self.each_word(&mut image, &good, &asked);
        }
    }

    fn each_word(&mut self, image: &mut Image, good: &[u32], asked: &[Key]) {
        for place in 0..good.len() {
            for word in [
                0,
                1,
                good[place].wrapping_add(1),
                good[place].wrapping_sub(1),
                good[place] ^ 1 << 31,
            ] {
                let mut words = good.to_vec();
                words[place] = word;
                self.damaged(image, good, &words, asked);
            }
        }
    }

    /// A case whose words differ from the image recorded last; one or two keys are looked up.
    fn damaged(&mut self, image: &mut Image, good: &[u32], words: &[u32], asked: &[Key]) {
        let edits: Vec<(usize, u32)> = (0..good.len())
            .filter(|place| good[*place] != words[*place])
            .map(|place| (place, words[place]))
            .collect();
        if !edits.is_empty() {
            let keys = [self.random.pick(asked), self.random.pick(asked)];
            let many = 1 + self.random.below(2);
            image.load(words);
            self.case(image, &edits, &keys[..many]);
        }
    }

    /// Records an image: M, N, and the words that are not zero, in runs.
    fn base(&mut self, image: &Image) {
        self.tally[0] += 1;
        let (layout, words) = (image.layout(), image.words());
        let mut runs = Vec::new();
        let mut place = 0;
        while place < words.len() {
            let from = place;
            while place < words.len() && words[place] != 0 {
                place += 1;
            }
            if place > from {
                runs.push(from..place);
            }
            place += 1;
        }
        self.out.extend([IMAGE, layout.m, layout.n, runs.len() as u32]);
        for run in runs {
            self.out.extend([run.start as u32, run.len() as u32]);
            self.out.extend(&words[run]);
        }
    }

    /// Records what the calls answer on an image, which is the one recorded last with these edits.
    fn case(&mut self, image: &mut Image, edits: &[(usize, u32)], keys: &[Key]) {
        let (m, n) = (image.layout().m, image.layout().n);
        let words = image.words().to_vec();
        let sound = accepted(&words, m, n);
        self.out.extend([CASE, edits.len() as u32]);
        self.out.extend(edits.iter().flat_map(|(place, word)| [*place as u32, *word]));
        self.out.extend([if sound { 0 } else { DAMAGED }, keys.len() as u32]);
        for key in keys {
            let (number, value) = lookup(&words, m, n, *key);
            if number != DAMAGED {
                let expected =
                    if number == ABSENT { oracle::history::ABSENT } else { Answer::Value(value) };
                assert_eq!(
                    apply(image, &Call::Get(*key)),
                    expected,
                    "the original looks up {key:x}"
                );
            }
            put_wide(&mut self.out, (key >> 64) as u64);
            put_wide(&mut self.out, *key as u64);
            self.out.push(number);
            put_wide(&mut self.out, value[0]);
            put_wide(&mut self.out, value[1]);
        }
        self.tally[1] += 1;
        self.tally[2] += usize::from(sound);
        self.tally[3] += keys.len();
    }
}
