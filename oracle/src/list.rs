//! The ascending list of entries with a capacity: what a map means. It answers each call but for
//! node indexes, which it does not know.

use crate::history::{Answer, Call, End, ABSENT, FULL};
use crate::image::{Key, Value};
use std::collections::BTreeMap;

pub struct List {
    capacity: usize,
    entries: BTreeMap<Key, Value>,
}

impl List {
    pub fn new(capacity: u32) -> List {
        List { capacity: capacity as usize, entries: BTreeMap::new() }
    }

    /// The list's answer, with index 0 wherever a node index is due.
    pub fn answer(&mut self, call: &Call) -> Answer {
        match call {
            Call::Start => Answer::Done,
            Call::Insert(key, value) => self.insert(*key, *value),
            Call::Remove(key) => self.entries.remove(key).map_or(ABSENT, Answer::Value),
            Call::Get(key) => self.entries.get(key).map_or(ABSENT, |value| Answer::Value(*value)),
            Call::Contains(key) => self.entries.get(key).map_or(ABSENT, |_| Answer::Done),
            Call::Write(key, value) => self.write(*key, *value),
            Call::Length => Answer::Count(self.entries.len() as u64),
            Call::Capacity => Answer::Count(self.capacity as u64),
            Call::Smallest => entry(self.entries.iter().next()),
            Call::Largest => entry(self.entries.iter().next_back()),
            Call::Address(key) => self.entries.get(key).map_or(ABSENT, |_| Answer::Index(0)),
            Call::All => {
                let entries = self.entries.iter().map(|found| entry(Some(found)));
                Answer::Steps(entries.chain([ABSENT]).collect())
            }
            Call::Steps(ends) => self.steps(ends),
        }
    }

    fn insert(&mut self, key: Key, value: Value) -> Answer {
        if self.entries.len() == self.capacity {
            return FULL;
        }
        self.entries.insert(key, value);
        Answer::Index(0)
    }

    fn write(&mut self, key: Key, value: Value) -> Answer {
        match self.entries.get_mut(&key) {
            None => ABSENT,
            Some(held) => {
                *held = value;
                Answer::Done
            }
        }
    }

    fn steps(&self, ends: &[End]) -> Answer {
        let mut left = self.entries.iter();
        let step = |end: &End| match end {
            End::Front => entry(left.next()),
            End::Back => entry(left.next_back()),
        };
        Answer::Steps(ends.iter().map(step).collect())
    }

    /// Makes the call on the list and says whether the original's answer is the same. An index only
    /// has to be one, and `get_addr` on an empty map panics in the original.
    pub fn agrees(&mut self, call: &Call, original: &Answer) -> bool {
        match (self.answer(call), original) {
            (Answer::Index(_), Answer::Index(index)) => *index != 0,
            (ABSENT, Answer::Panic) => matches!(call, Call::Address(_)) && self.entries.is_empty(),
            (list, original) => list == *original,
        }
    }
}

fn entry(found: Option<(&Key, &Value)>) -> Answer {
    found.map_or(ABSENT, |(key, value)| Answer::Entry((*key, *value)))
}
