//! Writes a history made from a seed:
//!
//!     generate SEED COUNT M N KIND
//!
//! with COUNT calls after the start. KIND is few, clustered, full, emptied or mixed.

use oracle::generate::{Generator, Kind};
use std::io::{self, BufWriter, Write};
use std::process::ExitCode;

struct Wish {
    seed: u64,
    count: usize,
    m: u32,
    n: u32,
    kind: Kind,
}

fn main() -> ExitCode {
    let arguments: Vec<String> = std::env::args().skip(1).collect();
    let Some(wish) = read(&arguments) else {
        eprintln!("usage: generate SEED COUNT M N KIND");
        return ExitCode::FAILURE;
    };
    match write(&wish) {
        Ok(()) => ExitCode::SUCCESS,
        Err(error) => {
            eprintln!("generate: {error}");
            ExitCode::FAILURE
        }
    }
}

fn read(arguments: &[String]) -> Option<Wish> {
    let [seed, count, m, n, kind] = arguments else {
        return None;
    };
    Some(Wish {
        seed: seed.parse().ok()?,
        count: count.parse().ok()?,
        m: m.parse().ok()?,
        n: n.parse().ok()?,
        kind: kind.parse().ok()?,
    })
}

fn write(wish: &Wish) -> io::Result<()> {
    let mut out = BufWriter::new(io::stdout().lock());
    writeln!(out, "{} {}", wish.m, wish.n)?;
    for call in Generator::new(wish.seed, wish.m, wish.kind).take(wish.count + 1) {
        writeln!(out, "{call}")?;
    }
    out.flush()
}
