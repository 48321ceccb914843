//! Makes the calls of a history on the original and writes each answer on a line of its own:
//!
//!     history [--words] [FILE]
//!
//! It reads standard input where no file is named. With `--words`, each answer is followed by a line
//! of the word `words` and all words of the image in hexadecimal. `src/history.rs` has the format of
//! calls and answers.

use oracle::apply::guarded;
use oracle::history::{read_size, Call};
use oracle::image::{Image, SIZES};
use std::fs::File;
use std::io::{self, BufRead, BufReader, BufWriter, Write};
use std::process::ExitCode;

fn main() -> ExitCode {
    match run() {
        Ok(()) => ExitCode::SUCCESS,
        Err(message) => {
            eprintln!("history: {message}");
            ExitCode::FAILURE
        }
    }
}

fn run() -> Result<(), String> {
    let (options, files): (Vec<_>, Vec<_>) =
        std::env::args().skip(1).partition(|argument| argument.starts_with("--"));
    if options.iter().any(|option| option != "--words") || files.len() > 1 {
        return Err("usage: history [--words] [FILE]".into());
    }
    replay(open(files.first())?, !options.is_empty())
}

fn open(file: Option<&String>) -> Result<Box<dyn BufRead>, String> {
    match file {
        None => Ok(Box::new(io::stdin().lock())),
        Some(name) => {
            let file = File::open(name).map_err(|error| format!("{name}: {error}"))?;
            Ok(Box::new(BufReader::new(file)))
        }
    }
}

fn replay(input: Box<dyn BufRead>, words: bool) -> Result<(), String> {
    let mut lines = input.lines().map(|line| line.map_err(|error| error.to_string()));
    let (m, n) = read_size(&lines.next().ok_or("no first line")??)?;
    let mut image =
        Image::blank(m, n).ok_or_else(|| format!("M N is none of the pairs {SIZES:?}"))?;
    let mut out = BufWriter::new(io::stdout().lock());
    for (number, line) in lines.enumerate() {
        let call: Call = line?.parse().map_err(|error| format!("line {}: {error}", number + 2))?;
        writeln!(out, "{}", guarded(&mut image, &call)).map_err(|error| error.to_string())?;
        if words {
            write_words(&mut out, image.words()).map_err(|error| error.to_string())?;
        }
    }
    out.flush().map_err(|error| error.to_string())
}

fn write_words(out: &mut impl Write, words: &[u32]) -> io::Result<()> {
    write!(out, "words")?;
    words.iter().try_for_each(|word| write!(out, " {word:x}"))?;
    writeln!(out)
}
