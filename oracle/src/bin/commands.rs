//! Answers the command program's lines, from standard input, with the original behind them:
//!
//!     commands < LINES
//!
//! The lines are read as the rules C say, by code that shares nothing with the port. M is 256 and N 512.

use oracle::apply::apply;
use oracle::history::{Answer, Call, Refusal};
use oracle::image::{Image, Key};
use std::io::{self, Read, Write};
use std::process::ExitCode;

fn main() -> ExitCode {
    let mut input = Vec::new();
    io::stdin().read_to_end(&mut input).expect("standard input");
    let mut image = Image::blank(256, 512).expect("one of the pairs");
    apply(&mut image, &Call::Start);

    let mut lines: Vec<&[u8]> = input.split(|byte| *byte == b'\n').collect();
    if lines.last().is_some_and(|line| line.is_empty()) {
        lines.pop(); // what stands behind the last LF is a line only if it has a byte
    }
    let mut output = Vec::new();
    for line in lines {
        match call(line) {
            Some(call) => write_answer(&mut output, &call, &apply(&mut image, &call)),
            None => output.extend_from_slice(b"bad\n"),
        }
    }
    io::stdout().write_all(&output).expect("standard output");
    ExitCode::SUCCESS
}

// ---- a line

fn call(line: &[u8]) -> Option<Call> {
    if line.len() > 80 {
        return None;
    }
    let fields: Vec<&[u8]> = line.split(|byte| *byte == b' ').collect();
    match fields.as_slice() {
        [b"i", key, value] => Some(Call::Insert(read_key(key)?, words(value)?)),
        [b"w", key, value] => Some(Call::Write(read_key(key)?, words(value)?)),
        [b"r", key] => Some(Call::Remove(read_key(key)?)),
        [b"g", key] => Some(Call::Get(read_key(key)?)),
        [b"n"] => Some(Call::Smallest),
        [b"x"] => Some(Call::Largest),
        [b"a"] => Some(Call::All),
        _ => None,
    }
}

fn words(field: &[u8]) -> Option<[u64; 2]> {
    let lowercase = |byte: &u8| matches!(byte, b'0'..=b'9' | b'a'..=b'f');
    if field.len() != 32 || !field.iter().all(lowercase) {
        return None;
    }
    let number = |text: &[u8]| u64::from_str_radix(std::str::from_utf8(text).ok()?, 16).ok();
    Some([number(&field[..16])?, number(&field[16..])?])
}

fn read_key(field: &[u8]) -> Option<Key> {
    let [high, low] = words(field)?;
    Some((Key::from(high) << 64) | Key::from(low))
}

// ---- an answer

fn write_answer(output: &mut Vec<u8>, call: &Call, answer: &Answer) {
    let text = match (call, answer) {
        (_, Answer::Steps(steps)) => {
            let entries = &steps[..steps.len() - 1]; // the last step is the 4 that ends the listing
            entries.iter().for_each(|entry| write_answer(output, call, entry));
            format!("end {}", entries.len())
        }
        (_, Answer::Refused(Refusal::Full)) => "full".to_string(),
        (_, Answer::Refused(_)) => "none".to_string(),
        (_, Answer::Index(index)) => format!("ok {index}"),
        (Call::Remove(_), Answer::Value([v0, v1])) => format!("gone {v0:016x}{v1:016x}"),
        (_, Answer::Value([v0, v1])) => format!("val {v0:016x}{v1:016x}"),
        (_, Answer::Done) => "set".to_string(),
        (_, Answer::Entry((key, [v0, v1]))) => format!("{key:032x} {v0:016x}{v1:016x}"),
        (call, answer) => panic!("{call} cannot be answered {answer}"),
    };
    writeln!(output, "{text}").expect("a vector takes all");
}
