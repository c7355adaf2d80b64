//! Compares what two programs printed for the same records, and takes one record out of many.
//!
//! `compare RECORDS EXPECTED GOT` prints the number of the first record, counted from 0, whose answers are not
//! the same, and ends with 1. If there is none it prints nothing and ends with 0.
//! `compare --record RECORDS NUMBER` writes that record to standard output.
//! Anything that cannot be done ends with 2.

use std::env;
use std::fs;
use std::io;
use std::process::ExitCode;

use referee::cases::split_answer;
use referee::record::Record;

fn main() -> ExitCode {
    let arguments: Vec<String> = env::args().skip(1).collect();
    let arguments: Vec<&str> = arguments.iter().map(String::as_str).collect();
    let outcome = match arguments[..] {
        ["--record", records, number] => write_record(records, number).map(|()| None),
        [records, expected, got] => first_difference(records, expected, got),
        _ => Err(io::Error::other(
            "usage: compare RECORDS EXPECTED GOT, compare --record RECORDS NUMBER",
        )),
    };
    match outcome {
        Ok(None) => ExitCode::SUCCESS,
        Ok(Some(number)) => {
            println!("{number}");
            ExitCode::FAILURE
        }
        Err(error) => {
            eprintln!("compare: {error}");
            ExitCode::from(2)
        }
    }
}

/// The first record whose answer is missing on either side or not the same; the
/// number of records if all are the same but more was printed behind them.
fn first_difference(records: &str, expected: &str, got: &str) -> io::Result<Option<usize>> {
    let (records, expected) = (fs::read(records)?, fs::read(expected)?);
    let got = fs::read(got)?;
    let (mut records, mut expected, mut got) = (&records[..], &expected[..], &got[..]);
    let mut number = 0;
    while Record::read(&mut records)?.is_some() {
        let same = split_answer(expected)
            .and_then(|(answer, rest)| Some((rest, got.strip_prefix(answer)?)));
        let Some(rests) = same else {
            return Ok(Some(number));
        };
        (expected, got) = rests;
        number += 1;
    }
    let more = !expected.is_empty() || !got.is_empty();
    Ok(more.then_some(number))
}

fn write_record(records: &str, number: &str) -> io::Result<()> {
    let number: usize = number.parse().map_err(io::Error::other)?;
    let records = fs::read(records)?;
    let mut rest = &records[..];
    for _ in 0..number {
        Record::read(&mut rest)?;
    }
    match Record::read(&mut rest)? {
        Some(record) => record.write(&mut io::stdout().lock()),
        None => Err(io::Error::other("there is no such record")),
    }
}
