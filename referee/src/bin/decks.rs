//! Writes random and damaged decks as records, from the first one or from a later one on.

use std::env;
use std::io::{self, BufWriter, Write};
use std::ops::Range;
use std::process::ExitCode;

use referee::generate::record;
use referee::stack::with_large_stack;

fn main() -> ExitCode {
    let mut arguments = env::args().skip(1).map(|argument| argument.parse::<u64>());
    let (Some(Ok(seed)), Some(Ok(count)), Ok(first), None) = (
        arguments.next(),
        arguments.next(),
        arguments.next().unwrap_or(Ok(0)),
        arguments.next(),
    ) else {
        eprintln!("usage: decks SEED COUNT [FIRST]");
        return ExitCode::FAILURE;
    };
    let numbers = first..first.saturating_add(count);
    match with_large_stack(move || write_all(seed, numbers)).and_then(|outcome| outcome) {
        Ok(()) => ExitCode::SUCCESS,
        Err(error) => {
            eprintln!("decks: {error}");
            ExitCode::FAILURE
        }
    }
}

fn write_all(seed: u64, numbers: Range<u64>) -> io::Result<()> {
    let mut output = BufWriter::new(io::stdout().lock());
    for number in numbers {
        record(seed, number).write(&mut output)?;
    }
    output.flush()
}
