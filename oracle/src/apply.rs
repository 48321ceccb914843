//! A call made on the original's image, in place, and the same guarded against panics.

use crate::history::{Answer, Call, End, ABSENT, FULL};
use crate::image::{Image, Listing, Map};
use std::cell::Cell;
use std::panic::{catch_unwind, set_hook, take_hook, AssertUnwindSafe};
use std::sync::Once;

/// What the original answers; its panics pass through.
pub fn apply(image: &mut Image, call: &Call) -> Answer {
    let map = image.map();
    match call {
        Call::Start => {
            map.start();
            Answer::Done
        }
        Call::Insert(key, value) => map.insert(*key, *value).map_or(FULL, Answer::Index),
        Call::Remove(key) => map.remove(*key).map_or(ABSENT, Answer::Value),
        Call::Get(key) => map.get(*key).map_or(ABSENT, Answer::Value),
        Call::Contains(key) => done(map.contains(*key)),
        Call::Write(key, value) => done(map.write(*key, *value)),
        Call::Length => Answer::Count(map.length()),
        Call::Capacity => Answer::Count(map.capacity()),
        Call::Smallest => map.smallest().map_or(ABSENT, Answer::Entry),
        Call::Largest => map.largest().map_or(ABSENT, Answer::Entry),
        Call::Address(key) => match map.address(*key) {
            0 => ABSENT,
            index => Answer::Index(index),
        },
        Call::All => Answer::Steps(all(map)),
        Call::Steps(ends) => {
            let mut listing = map.listing();
            Answer::Steps(ends.iter().map(|end| step(&mut listing, *end)).collect())
        }
    }
}

fn done(found: bool) -> Answer {
    if found {
        Answer::Done
    } else {
        ABSENT
    }
}

/// The next entry at one end of a listing.
pub fn step(listing: &mut Listing, end: End) -> Answer {
    let entry = match end {
        End::Front => listing.next(),
        End::Back => listing.next_back(),
    };
    entry.map_or(ABSENT, |(key, value)| Answer::Entry((*key, *value)))
}

fn all(map: &dyn Map) -> Vec<Answer> {
    let mut listing = map.listing();
    let mut answers = Vec::new();
    loop {
        let answer = step(&mut listing, End::Front);
        let ended = answer == ABSENT;
        answers.push(answer);
        if ended {
            return answers;
        }
    }
}

/// What the original answers, its panics too. After a panic the image is what the original left.
/// A call that never ends is not caught.
pub fn guarded(image: &mut Image, call: &Call) -> Answer {
    guard(|| apply(image, call)).unwrap_or(Answer::Panic)
}

thread_local!(static GUARDED: Cell<bool> = const { Cell::new(false) });
static HOOK: Once = Once::new();

/// What `work` gives, or nothing if it panics, which is then not reported on standard error.
pub fn guard<T>(work: impl FnOnce() -> T) -> Option<T> {
    HOOK.call_once(silence_guarded);
    GUARDED.set(true);
    let outcome = catch_unwind(AssertUnwindSafe(work));
    GUARDED.set(false);
    outcome.ok()
}

fn silence_guarded() {
    let report = take_hook();
    set_hook(Box::new(move |panic| {
        if !GUARDED.get() {
            report(panic)
        }
    }));
}
