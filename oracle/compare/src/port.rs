//! The port's calls, on an image's words in place, with the answers that the original's calls give.

use oracle::history::{Answer, Call, Refusal};
use oracle::image::{Entry, Key, Value};

extern "C" {
    fn bridge_start(img: *mut u8, len: usize, m: u32, n: u32) -> u32;
    fn bridge_len(img: *const u8, len: usize, m: u32, n: u32) -> u64;
    fn bridge_capacity(img: *const u8, len: usize, m: u32, n: u32) -> u64;
    fn bridge_get(
        img: *const u8,
        len: usize,
        m: u32,
        n: u32,
        high: u64,
        low: u64,
        out: *mut u8,
        out_len: usize,
    ) -> u32;
    fn bridge_set(
        img: *mut u8,
        len: usize,
        m: u32,
        n: u32,
        high: u64,
        low: u64,
        first: u64,
        second: u64,
    ) -> u32;
    fn bridge_contains(img: *const u8, len: usize, m: u32, n: u32, high: u64, low: u64) -> u32;
    fn bridge_addr(img: *const u8, len: usize, m: u32, n: u32, high: u64, low: u64) -> u64;
    fn bridge_min(img: *const u8, len: usize, m: u32, n: u32, out: *mut u8, out_len: usize) -> u32;
    fn bridge_max(img: *const u8, len: usize, m: u32, n: u32, out: *mut u8, out_len: usize) -> u32;
    fn bridge_insert(
        img: *mut u8,
        len: usize,
        m: u32,
        n: u32,
        high: u64,
        low: u64,
        first: u64,
        second: u64,
    ) -> u64;
    fn bridge_remove(
        img: *mut u8,
        len: usize,
        m: u32,
        n: u32,
        high: u64,
        low: u64,
        out: *mut u8,
        out_len: usize,
    ) -> u32;
    fn bridge_list(img: *const u8, len: usize, m: u32, n: u32, pos: *mut u8, pos_len: usize)
        -> u32;
    fn bridge_step(
        img: *const u8,
        len: usize,
        m: u32,
        n: u32,
        back: u32,
        pos: *mut u8,
        pos_len: usize,
        out: *mut u8,
        out_len: usize,
    ) -> u32;
    fn bridge_list_all(
        img: *const u8,
        len: usize,
        m: u32,
        n: u32,
        out: *mut u8,
        out_len: usize,
    ) -> u64;
    fn bridge_check(
        img: *const u8,
        len: usize,
        m: u32,
        n: u32,
        scratch: *mut u8,
        scratch_len: usize,
    ) -> u32;
}

/// A listing's position as words: two stacks, each of 129 places, a count and the value record given last; then the mark.
pub const POSITION: usize = 2 * STACK + 1;
pub const STACK: usize = 131;

#[derive(Clone, PartialEq, Eq, Debug)]
pub struct Position(pub [u32; POSITION]);

/// An image's words with its M and N.
pub struct Port<'a> {
    pub words: &'a mut [u32],
    pub m: u32,
    pub n: u32,
}

fn halves(key: Key) -> (u64, u64) {
    ((key >> 64) as u64, key as u64)
}

pub fn refused(number: u32) -> Answer {
    Answer::Refused(match number {
        1 => Refusal::Shape,
        2 => Refusal::Damaged,
        3 => Refusal::Full,
        4 => Refusal::Absent,
        5 => Refusal::NotBlank,
        6 => Refusal::Cursor,
        _ => panic!("no number of the rules: {number}"),
    })
}

fn done(number: u32) -> Answer {
    if number == 0 {
        Answer::Done
    } else {
        refused(number)
    }
}

fn split(joined: u64, answer: impl FnOnce(u32) -> Answer) -> Answer {
    match (joined >> 32) as u32 {
        0 => answer(joined as u32),
        number => refused(number),
    }
}

fn entry(out: [u64; 4]) -> Answer {
    Answer::Entry(((out[0] as Key) << 64 | out[1] as Key, [out[2], out[3]]))
}

impl Port<'_> {
    fn len(&self) -> usize {
        4 * self.words.len()
    }

    fn shared(&self) -> *const u8 {
        self.words.as_ptr().cast()
    }

    fn lent(&mut self) -> *mut u8 {
        self.words.as_mut_ptr().cast()
    }

    pub fn get(&self, key: Key) -> Answer {
        let (high, low) = halves(key);
        let mut out: Value = [0; 2];
        // Safety: each pointer comes with the length of what it points to.
        let number = unsafe {
            bridge_get(
                self.shared(),
                self.len(),
                self.m,
                self.n,
                high,
                low,
                out.as_mut_ptr().cast(),
                16,
            )
        };
        if number == 0 {
            Answer::Value(out)
        } else {
            refused(number)
        }
    }

    pub fn insert(&mut self, key: Key, value: Value) -> Answer {
        let (high, low) = halves(key);
        let joined = unsafe {
            bridge_insert(self.lent(), self.len(), self.m, self.n, high, low, value[0], value[1])
        };
        split(joined, Answer::Index)
    }

    pub fn remove(&mut self, key: Key) -> Answer {
        let (high, low) = halves(key);
        let mut out: Value = [0; 2];
        let number = unsafe {
            bridge_remove(
                self.lent(),
                self.len(),
                self.m,
                self.n,
                high,
                low,
                out.as_mut_ptr().cast(),
                16,
            )
        };
        if number == 0 {
            Answer::Value(out)
        } else {
            refused(number)
        }
    }

    fn end(&self, largest: bool) -> Answer {
        let mut out = [0u64; 4];
        let call = if largest { bridge_max } else { bridge_min };
        let number =
            unsafe { call(self.shared(), self.len(), self.m, self.n, out.as_mut_ptr().cast(), 32) };
        if number == 0 {
            entry(out)
        } else {
            refused(number)
        }
    }

    /// A position before the first entry and behind the last.
    pub fn list(&self) -> (Answer, Position) {
        let mut position = Position([0; POSITION]);
        let number = unsafe {
            bridge_list(
                self.shared(),
                self.len(),
                self.m,
                self.n,
                position.0.as_mut_ptr().cast(),
                4 * POSITION,
            )
        };
        (done(number), position)
    }

    /// A step at the front, or at the back.
    pub fn step(&self, position: &mut Position, back: bool) -> Answer {
        let mut out = [0u64; 4];
        let number = unsafe {
            bridge_step(
                self.shared(),
                self.len(),
                self.m,
                self.n,
                back.into(),
                position.0.as_mut_ptr().cast(),
                4 * POSITION,
                out.as_mut_ptr().cast(),
                32,
            )
        };
        if number == 0 {
            entry(out)
        } else {
            refused(number)
        }
    }

    /// A whole listing from the front: how many entries, and the exclusive or of their keys and values.
    pub fn list_all(&self) -> (u64, Entry) {
        let mut out = [0u64; 4];
        let count = unsafe {
            bridge_list_all(self.shared(), self.len(), self.m, self.n, out.as_mut_ptr().cast(), 32)
        };
        (count, ((out[0] as Key) << 64 | out[1] as Key, [out[2], out[3]]))
    }

    /// The full check's number, with the scratch that it is lent.
    pub fn check(&self, scratch: &mut [u32]) -> u32 {
        unsafe {
            bridge_check(
                self.shared(),
                self.len(),
                self.m,
                self.n,
                scratch.as_mut_ptr().cast(),
                4 * scratch.len(),
            )
        }
    }

    /// The port's answer to a call; none where the call is a listing.
    pub fn apply(&mut self, call: &Call) -> Option<Answer> {
        let (m, n) = (self.m, self.n);
        Some(match call {
            Call::Start => done(unsafe { bridge_start(self.lent(), self.len(), m, n) }),
            Call::Insert(key, value) => self.insert(*key, *value),
            Call::Remove(key) => self.remove(*key),
            Call::Get(key) => self.get(*key),
            Call::Contains(key) => {
                let (high, low) = halves(*key);
                done(unsafe { bridge_contains(self.shared(), self.len(), m, n, high, low) })
            }
            Call::Write(key, value) => {
                let (high, low) = halves(*key);
                done(unsafe {
                    bridge_set(self.lent(), self.len(), m, n, high, low, value[0], value[1])
                })
            }
            Call::Length => split(unsafe { bridge_len(self.shared(), self.len(), m, n) }, |k| {
                Answer::Count(k.into())
            }),
            Call::Capacity => {
                split(unsafe { bridge_capacity(self.shared(), self.len(), m, n) }, |k| {
                    Answer::Count(k.into())
                })
            }
            Call::Smallest => self.end(false),
            Call::Largest => self.end(true),
            Call::Address(key) => {
                let (high, low) = halves(*key);
                split(
                    unsafe { bridge_addr(self.shared(), self.len(), m, n, high, low) },
                    Answer::Index,
                )
            }
            Call::All | Call::Steps(_) => return None,
        })
    }
}
