//! Histories made from a seed: the same seed, sizes and kind give the same calls on every machine.
//!
//! A history is a row of eras. An era has a pool of keys, from which its calls draw, and ends by
//! removing every key of the pool, so that each era starts with an empty map. Within an era the
//! calls follow tides, in which inserts or removes prevail.

use crate::history::{Call, End};
use crate::image::{Key, Value};
use std::str::FromStr;

// ---- chance

/// The splitmix64 generator.
pub struct Random(u64);

impl Random {
    pub fn new(seed: u64) -> Random {
        Random(seed)
    }

    pub fn word(&mut self) -> u64 {
        self.0 = self.0.wrapping_add(0x9e37_79b9_7f4a_7c15);
        let once = (self.0 ^ self.0 >> 30).wrapping_mul(0xbf58_476d_1ce4_e5b9);
        let twice = (once ^ once >> 27).wrapping_mul(0x94d0_49bb_1331_11eb);
        twice ^ twice >> 31
    }

    /// A number from 0 up to, not including, `limit`.
    pub fn below(&mut self, limit: usize) -> usize {
        (self.word() % limit as u64) as usize
    }

    pub fn key(&mut self) -> Key {
        (self.word() as u128) << 64 | self.word() as u128
    }

    pub fn pick<T: Copy>(&mut self, from: &[T]) -> T {
        from[self.below(from.len())]
    }

    fn shuffle<T>(&mut self, things: &mut [T]) {
        for last in (1..things.len()).rev() {
            things.swap(last, self.below(last + 1));
        }
    }
}

// ---- kinds of history

#[derive(Clone, Copy, Debug, PartialEq, Eq)]
pub enum Kind {
    /// Few keys, so that most calls meet a key that was there before.
    Few,
    /// Keys with long common prefixes and keys one bit apart, so that paths are deep.
    Clustered,
    /// Far more keys than the capacity: the map is full most of the time, and refilled.
    Full,
    /// Filled, then emptied to the last key, again and again.
    Emptied,
    /// One of the above in each era.
    Mixed,
}

pub const KINDS: &[(&str, Kind)] = &[
    ("few", Kind::Few),
    ("clustered", Kind::Clustered),
    ("full", Kind::Full),
    ("emptied", Kind::Emptied),
    ("mixed", Kind::Mixed),
];

impl FromStr for Kind {
    type Err = String;

    fn from_str(name: &str) -> Result<Kind, String> {
        let found = KINDS.iter().find(|(known, _)| *known == name);
        found.map(|(_, kind)| *kind).ok_or_else(|| format!("not a kind: {name:?}"))
    }
}

// ---- keys

const CORNERS: [Key; 8] = [0, 1, 1 << 63, 1 << 64, 1 << 127, (1 << 64) - 1, Key::MAX - 1, Key::MAX];

fn few_keys(random: &mut Random) -> Vec<Key> {
    let count = 2 + random.below(7);
    let key = |_| match random.below(3) {
        0 => random.key(),
        _ => random.pick(&CORNERS),
    };
    (0..count).map(key).collect()
}

/// Keys around one base: the base with one bit changed, each bit in turn, or with another tail.
fn clustered_keys(random: &mut Random, count: usize) -> Vec<Key> {
    let other = random.key();
    let base = random.pick(&[0, Key::MAX, other]);
    let tail = random.below(24) as u32;
    let first = random.below(128);
    let key = |place: usize| match place % 8 {
        0 | 2 | 4 | 6 => base ^ 1 << ((first + 37 * (place / 2)) % 128),
        1 => base,
        3 | 5 => base ^ random.key() & ((1 << tail) - 1),
        _ => random.key(),
    };
    (0..count).map(key).collect()
}

fn spread_keys(random: &mut Random, count: usize) -> Vec<Key> {
    let step = random.key() | 1;
    match random.below(3) {
        0 => (0..count).map(|_| random.key()).collect(),
        1 => (0..count).map(|place| place as Key).collect(),
        _ => (0..count).map(|place| step.wrapping_mul(place as Key)).collect(),
    }
}

// ---- calls

/// How many of a hundred calls insert and how many remove; the others leave the keys as they are.
#[derive(Clone, Copy)]
struct Tide {
    inserts: usize,
    removes: usize,
}

const RISING: Tide = Tide { inserts: 62, removes: 6 };
const EVEN: Tide = Tide { inserts: 36, removes: 32 };
const FALLING: Tide = Tide { inserts: 8, removes: 60 };

/// Calls without end, beginning with the start.
pub struct Generator {
    random: Random,
    kind: Kind,
    m: usize,
    started: bool,
    era: Era,
    tide: Tide,
    tide_left: usize,
}

struct Era {
    kind: Kind,
    pool: Vec<Key>,
    calls_left: usize,
    /// The keys still to be removed, once the era has come to its end.
    drain: Option<Vec<Key>>,
}

impl Generator {
    pub fn new(seed: u64, m: u32, kind: Kind) -> Generator {
        let mut random = Random::new(seed);
        let m = m as usize;
        let era = Era::new(&mut random, m, kind);
        Generator { random, kind, m, started: false, era, tide: EVEN, tide_left: 0 }
    }

    /// The next removal of the era's end, or nothing while the era lasts.
    fn drained(&mut self) -> Option<Call> {
        let drain = self.era.drain.as_mut()?;
        match drain.pop() {
            Some(key) => Some(Call::Remove(key)),
            None => {
                self.era = Era::new(&mut self.random, self.m, self.kind);
                self.tide_left = 0;
                None
            }
        }
    }

    fn draw(&mut self) -> Call {
        if self.tide_left == 0 {
            (self.tide, self.tide_left) = self.era.tide(&mut self.random, self.m);
        }
        self.tide_left -= 1;
        self.era.pass(&mut self.random);
        let chance = self.random.below(100);
        if chance < self.tide.inserts {
            let key = self.random.pick(&self.era.pool);
            return Call::Insert(key, self.value());
        }
        if chance < self.tide.inserts + self.tide.removes {
            return Call::Remove(self.any_key());
        }
        self.question()
    }

    fn question(&mut self) -> Call {
        match self.random.below(32) {
            0..=7 => Call::Get(self.any_key()),
            8..=11 => Call::Contains(self.any_key()),
            12..=16 => Call::Write(self.any_key(), self.value()),
            17..=21 => Call::Address(self.any_key()),
            22..=23 => Call::Smallest,
            24..=25 => Call::Largest,
            26..=28 => Call::Steps(self.ends()),
            29 => Call::Length,
            30 => Call::Capacity,
            _ => Call::All,
        }
    }

    fn value(&mut self) -> Value {
        [self.random.word(), self.random.word()]
    }

    /// A key of the pool, or now and then one that is a bit away from it.
    fn any_key(&mut self) -> Key {
        let key = self.random.pick(&self.era.pool);
        match self.random.below(8) {
            0 => key ^ 1 << self.random.below(128),
            _ => key,
        }
    }

    /// Steps at both ends, often more than there are entries in a small map.
    fn ends(&mut self) -> Vec<End> {
        let count = 1 + self.random.below(self.m.min(64) + 4);
        let ends = [End::Front, End::Back];
        (0..count).map(|_| self.random.pick(&ends)).collect()
    }
}

impl Iterator for Generator {
    type Item = Call;

    fn next(&mut self) -> Option<Call> {
        if !self.started {
            self.started = true;
            return Some(Call::Start);
        }
        if self.era.drain.is_some() && self.random.below(8) == 0 {
            return Some(self.question());
        }
        let drained = self.drained();
        Some(drained.unwrap_or_else(|| self.draw()))
    }
}

impl Era {
    fn new(random: &mut Random, m: usize, kind: Kind) -> Era {
        let kind = match kind {
            Kind::Mixed => random.pick(&[Kind::Few, Kind::Clustered, Kind::Full, Kind::Emptied]),
            other => other,
        };
        let (pool, calls_left) = match kind {
            Kind::Few => (few_keys(random), 300),
            Kind::Clustered => (clustered_keys(random, 2 * m + 2), 8 * m + 40),
            Kind::Full => (spread_keys(random, 2 * m + 2), 12 * m + 40),
            _ => (spread_keys(random, m + 2), 1 + random.below(3 * m + 4)),
        };
        Era { kind, pool, calls_left, drain: None }
    }

    /// The next tide and how many calls it lasts.
    fn tide(&self, random: &mut Random, m: usize) -> (Tide, usize) {
        let tide = match self.kind {
            Kind::Few => random.pick(&[RISING, EVEN, FALLING]),
            Kind::Clustered => random.pick(&[RISING, EVEN]),
            Kind::Full => random.pick(&[RISING, RISING, RISING, FALLING]),
            _ => RISING,
        };
        (tide, 4 + random.below(m + 8))
    }

    /// Counts a call; the last one ends the era.
    fn pass(&mut self, random: &mut Random) {
        self.calls_left -= 1;
        if self.calls_left == 0 {
            let mut keys = self.pool.clone();
            random.shuffle(&mut keys);
            self.drain = Some(keys);
        }
    }
}
