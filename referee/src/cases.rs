//! The decks with known answers that lie under `tests/cases`.

use std::fs;
use std::io;
use std::path::{Path, PathBuf};

use crate::bytes::find;
use crate::record::Record;

/// A deck with its name and what the program must print for it.
#[derive(Clone, Debug)]
pub struct Case {
    pub name: String,
    pub record: Record,
    pub answer: Vec<u8>,
}

/// The folder of the cases in the source tree.
pub fn folder() -> PathBuf {
    Path::new(env!("CARGO_MANIFEST_DIR")).join("../tests/cases")
}

/// All cases of a folder.
pub fn load(folder: &Path) -> io::Result<Vec<Case>> {
    let names = fs::read_to_string(folder.join("names.txt"))?;
    let records = fs::read(folder.join("records.bin"))?;
    let answers = fs::read(folder.join("answers.txt"))?;
    let (mut records, mut answers) = (records.as_slice(), answers.as_slice());
    let mut cases = Vec::new();
    for name in names.lines() {
        let record = Record::read(&mut records)?.ok_or_else(|| missing("record", name))?;
        let (answer, rest) = split_answer(answers).ok_or_else(|| missing("answer", name))?;
        answers = rest;
        cases.push(Case {
            name: name.to_string(),
            record,
            answer: answer.to_vec(),
        });
    }
    if !records.is_empty() || !answers.is_empty() {
        return Err(missing("name", "what is behind the last one"));
    }
    Ok(cases)
}

fn missing(what: &str, name: &str) -> io::Error {
    io::Error::other(format!("there is no {what} for {name}"))
}

/// Splits off the first answer: its numbers tell how far it goes.
pub fn split_answer(answers: &[u8]) -> Option<(&[u8], &[u8])> {
    let mut end = find(answers, 0, b"\n")? + 1;
    let numbers = std::str::from_utf8(answers.get(..end)?).ok()?;
    let mut numbers = numbers.split_whitespace().skip(4).map(str::parse::<usize>);
    let text = numbers.next()?.ok()?;
    let lines = numbers.next()?.ok()?;
    for _ in 0..lines {
        end = find(answers, end, b"\n")? + 1;
    }
    answers.split_at_checked(end.checked_add(text)?.checked_add(1)?)
}
