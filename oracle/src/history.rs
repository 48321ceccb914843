//! Calls and their answers, and both as text: one call a line, one answer a line.
//!
//! A history's first line is `M N`, in decimal; all other numbers are hexadecimal. A key is its high
//! and its low word, a value its first and its second word. The calls:
//!
//! ```text
//! s                   start            l   length
//! i HIGH LOW V0 V1    insert           p   capacity
//! r HIGH LOW          remove           n   smallest
//! g HIGH LOW          get              x   largest
//! c HIGH LOW          contains         a   all entries, from the front
//! w HIGH LOW V0 V1    value write      z FBFB..   a fresh listing, stepped at its front and back
//! d HIGH LOW          get_addr
//! ```
//!
//! An answer is the number of docs/RULES.md, and after 0 the results; a refusal's results are zeros and are
//! not written. A panic of the original is the word `panic`.
//!
//! ```text
//! s, w, c             0
//! i, d                0 INDEX
//! r, g                0 V0 V1
//! l, p                0 COUNT
//! n, x                0 HIGH LOW V0 V1
//! a, z                each step as n and x, parted by `; `; the last step of `a` is the 4 that ends it
//! ```

use crate::image::{Entry, Key, Value};
use std::fmt;
use std::str::FromStr;

#[derive(Clone, Copy, Debug, PartialEq, Eq)]
pub enum End {
    Front,
    Back,
}

#[derive(Clone, Debug, PartialEq, Eq)]
pub enum Call {
    Start,
    Insert(Key, Value),
    Remove(Key),
    Get(Key),
    Contains(Key),
    Write(Key, Value),
    Length,
    Capacity,
    Smallest,
    Largest,
    Address(Key),
    All,
    Steps(Vec<End>),
}

/// The refusals with their numbers (docs/RULES.md, R). The original knows only two of them.
#[derive(Clone, Copy, Debug, PartialEq, Eq)]
pub enum Refusal {
    Shape = 1,
    Damaged = 2,
    Full = 3,
    Absent = 4,
    NotBlank = 5,
    Cursor = 6,
}

#[derive(Clone, Debug, PartialEq, Eq)]
pub enum Answer {
    Done,
    Index(u32),
    Value(Value),
    Count(u64),
    Entry(Entry),
    Steps(Vec<Answer>),
    Refused(Refusal),
    Panic,
}

pub const ABSENT: Answer = Answer::Refused(Refusal::Absent);
pub const FULL: Answer = Answer::Refused(Refusal::Full);

// ---- reading

/// The pair M, N of a history's first line.
pub fn read_size(line: &str) -> Result<(u32, u32), String> {
    let bad = || format!("not a line `M N`: {line:?}");
    let (m, n) = line.split_once(' ').ok_or_else(bad)?;
    let number = |text: &str| text.parse().map_err(|_| bad());
    Ok((number(m)?, number(n)?))
}

impl FromStr for Call {
    type Err = String;

    fn from_str(line: &str) -> Result<Call, String> {
        read_call(line).ok_or_else(|| format!("not a call: {line:?}"))
    }
}

fn read_call(line: &str) -> Option<Call> {
    let mut fields = line.split(' ');
    let letter = fields.next()?;
    if letter == "z" {
        let steps = read_steps(fields.next()?)?;
        return fields.next().is_none().then_some(Call::Steps(steps));
    }
    let numbers = fields.map(read_number).collect::<Option<Vec<u64>>>()?;
    match (letter, numbers.as_slice()) {
        ("s", []) => Some(Call::Start),
        ("i", &[high, low, v0, v1]) => Some(Call::Insert(key(high, low), [v0, v1])),
        ("r", &[high, low]) => Some(Call::Remove(key(high, low))),
        ("g", &[high, low]) => Some(Call::Get(key(high, low))),
        ("c", &[high, low]) => Some(Call::Contains(key(high, low))),
        ("w", &[high, low, v0, v1]) => Some(Call::Write(key(high, low), [v0, v1])),
        ("l", []) => Some(Call::Length),
        ("p", []) => Some(Call::Capacity),
        ("n", []) => Some(Call::Smallest),
        ("x", []) => Some(Call::Largest),
        ("d", &[high, low]) => Some(Call::Address(key(high, low))),
        ("a", []) => Some(Call::All),
        _ => None,
    }
}

fn read_number(text: &str) -> Option<u64> {
    let digits = text.bytes().all(|byte| byte.is_ascii_hexdigit());
    digits.then(|| u64::from_str_radix(text, 16).ok())?
}

fn read_steps(letters: &str) -> Option<Vec<End>> {
    if letters.is_empty() {
        return None;
    }
    let end = |letter| match letter {
        'F' => Some(End::Front),
        'B' => Some(End::Back),
        _ => None,
    };
    letters.chars().map(end).collect()
}

/// The key of these two words.
pub fn key(high: u64, low: u64) -> Key {
    (high as u128) << 64 | low as u128
}

pub fn high(key: Key) -> u64 {
    (key >> 64) as u64
}

pub fn low(key: Key) -> u64 {
    key as u64
}

// ---- writing

struct Words<'a>(&'a [u64]);

impl fmt::Display for Words<'_> {
    fn fmt(&self, out: &mut fmt::Formatter) -> fmt::Result {
        self.0.iter().try_for_each(|word| write!(out, " {word:x}"))
    }
}

impl fmt::Display for Call {
    fn fmt(&self, out: &mut fmt::Formatter) -> fmt::Result {
        let mut keyed = |letter, key: &Key, value: &[u64]| {
            write!(out, "{letter}{}{}", Words(&[high(*key), low(*key)]), Words(value))
        };
        match self {
            Call::Insert(key, value) => keyed('i', key, value),
            Call::Remove(key) => keyed('r', key, &[]),
            Call::Get(key) => keyed('g', key, &[]),
            Call::Contains(key) => keyed('c', key, &[]),
            Call::Write(key, value) => keyed('w', key, value),
            Call::Address(key) => keyed('d', key, &[]),
            Call::Start => out.write_str("s"),
            Call::Length => out.write_str("l"),
            Call::Capacity => out.write_str("p"),
            Call::Smallest => out.write_str("n"),
            Call::Largest => out.write_str("x"),
            Call::All => out.write_str("a"),
            Call::Steps(ends) => {
                out.write_str("z ")?;
                let letter = |end: &End| if *end == End::Front { "F" } else { "B" };
                ends.iter().try_for_each(|end| out.write_str(letter(end)))
            }
        }
    }
}

impl fmt::Display for Answer {
    fn fmt(&self, out: &mut fmt::Formatter) -> fmt::Result {
        match self {
            Answer::Done => out.write_str("0"),
            Answer::Index(index) => write!(out, "0 {index:x}"),
            Answer::Value(value) => write!(out, "0{}", Words(value)),
            Answer::Count(count) => write!(out, "0 {count:x}"),
            Answer::Entry((key, value)) => {
                write!(out, "0{}{}", Words(&[high(*key), low(*key)]), Words(value))
            }
            Answer::Steps(answers) => {
                let texts: Vec<String> = answers.iter().map(Answer::to_string).collect();
                out.write_str(&texts.join("; "))
            }
            Answer::Refused(refusal) => write!(out, "{}", *refusal as u32),
            Answer::Panic => out.write_str("panic"),
        }
    }
}
