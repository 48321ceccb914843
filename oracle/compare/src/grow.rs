//! Good images of random histories.

use oracle::apply::guarded;
use oracle::generate::{Generator, Random, KINDS};
use oracle::history::Call;
use oracle::image::{Image, Key};

/// A good image of a random history, and the keys that it used.
pub fn grow(random: &mut Random, good: &mut Image, m: u32, n: u32) -> Vec<Key> {
    *good = Image::blank(m, n).expect("one of the pairs");
    let (_, kind) = KINDS[random.below(KINDS.len())];
    let length = 1 + random.below(6 * m as usize + 4);
    let mut keys = Vec::new();
    for call in Generator::new(random.word(), m, kind).take(length) {
        if let Call::Insert(key, _) = &call {
            keys.push(*key);
        }
        if !matches!(call, Call::All | Call::Steps(_)) {
            guarded(good, &call);
        }
    }
    keys.push(random.key());
    keys
}
