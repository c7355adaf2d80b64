//! Expands the decks of the records on standard input.

use std::io::{self, BufReader, BufWriter, Write};
use std::process::ExitCode;

use referee::record::Record;
use referee::stack::with_large_stack;

fn main() -> ExitCode {
    match with_large_stack(answer_all).and_then(|outcome| outcome) {
        Ok(()) => ExitCode::SUCCESS,
        Err(error) => {
            eprintln!("referee: {error}");
            ExitCode::FAILURE
        }
    }
}

/// Answers every record until the input ends; what was answered is written even
/// if the next record is cut short.
fn answer_all() -> io::Result<()> {
    let mut input = BufReader::new(io::stdin().lock());
    let mut output = BufWriter::new(io::stdout().lock());
    let outcome = answer_each(&mut input, &mut output);
    output.flush()?;
    outcome
}

fn answer_each(input: &mut impl io::Read, output: &mut impl Write) -> io::Result<()> {
    while let Some(record) = Record::read(input)? {
        record.expand().print(output)?;
    }
    Ok(())
}
