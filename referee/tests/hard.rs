//! The programs that the scripts under `tests` use: `hard` and `compare`.

use std::fs;
use std::path::PathBuf;
use std::process::{Command, Output};

use referee::generate::record;
use referee::record::Record;
use referee::stack::with_large_stack;

fn output(program: &str, arguments: &[&str]) -> Output {
    let output = Command::new(program).args(arguments).output();
    output.expect("the program runs")
}

fn hard(argument: &str) -> Vec<u8> {
    output(env!("CARGO_BIN_EXE_hard"), &[argument]).stdout
}

#[test]
fn every_hard_deck_has_the_number_it_is_made_for() {
    let names = String::from_utf8(hard("--names")).expect("names");
    assert!(names.lines().count() > 100, "number of decks");
    for line in names.lines() {
        let (name, number) = line.split_once(' ').expect("a name and a number");
        let record = Record::read(&mut hard(name).as_slice()).expect("a record");
        let record = record.expect("a record");
        assert!(record.deck.len() <= 131_072, "size of {name}");
        let answer = with_large_stack(move || record.expand()).expect("an answer");
        assert_eq!(answer.number.to_string(), number, "{name}");
    }
}

/// A file of this test with these bytes.
fn file(name: &str, bytes: &[u8]) -> PathBuf {
    let path = PathBuf::from(env!("CARGO_TARGET_TMPDIR")).join(name);
    fs::write(&path, bytes).expect("a file");
    path
}

#[test]
fn compare_finds_the_first_record_that_differs() {
    let (mut records, mut answers, mut ends) = (Vec::new(), Vec::new(), vec![0]);
    for number in 0..50 {
        let record = record(7, number);
        record.write(&mut records).expect("bytes");
        answers.extend(record.expand().printed());
        ends.push(answers.len());
    }
    let records = file("compare.records", &records);
    let expected = file("compare.expected", &answers);
    let compare = |got: &[u8]| {
        let got = file("compare.got", got);
        let paths = [&records, &expected, &got].map(|path| path.to_str().expect("a path"));
        let output = output(env!("CARGO_BIN_EXE_compare"), &paths);
        let printed = String::from_utf8(output.stdout).expect("a number");
        (output.status.code(), printed.trim().to_string())
    };
    assert_eq!(compare(&answers), (Some(0), String::new()));
    for number in [0, 1, 30, 49] {
        let mut wrong = answers.clone();
        wrong[ends[number]] ^= 1;
        assert_eq!(compare(&wrong), (Some(1), number.to_string()), "wrong");
        let short = &answers[..ends[number + 1] - 1];
        assert_eq!(compare(short), (Some(1), number.to_string()), "short");
    }
    answers.push(b'0');
    assert_eq!(compare(&answers), (Some(1), "50".to_string()), "longer");
}
