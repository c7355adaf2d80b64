//! Prints a case by its name with its known answer and says what the referee answers; or all names that begin with what is given.

use std::env;
use std::io::{self, Write};
use std::process::ExitCode;

use referee::cards::Layout;
use referee::cases::{folder, load, Case};
use referee::deck::{self, Member};
use referee::stack::with_large_stack;

fn main() -> ExitCode {
    let Some(wanted) = env::args().nth(1) else {
        eprintln!("usage: show NAME");
        return ExitCode::FAILURE;
    };
    let name = wanted.clone();
    match with_large_stack(move || show(&name)).and_then(|shown| shown) {
        Ok(true) => ExitCode::SUCCESS,
        Ok(false) => {
            eprintln!("show: no case is named {wanted}, and no name begins so");
            ExitCode::FAILURE
        }
        Err(error) => {
            eprintln!("show: {error}");
            ExitCode::FAILURE
        }
    }
}

/// Shows the case, or the names that begin so; false if there are none.
fn show(wanted: &str) -> io::Result<bool> {
    let cases = load(&folder())?;
    let mut output = io::stdout().lock();
    if let Some(case) = cases.iter().find(|case| case.name == wanted) {
        show_case(case, &mut output)?;
        return Ok(true);
    }
    let mut found = false;
    for case in cases.iter().filter(|case| case.name.starts_with(wanted)) {
        writeln!(output, "{}", case.name)?;
        found = true;
    }
    Ok(found)
}

fn layout_name(layout: Layout) -> &'static str {
    match layout {
        Layout::Plain => "plain",
        Layout::Cards => "cards",
    }
}

/// `member`, or `library(member)` in a deck of the second layout.
fn full_name(member: &Member) -> String {
    let name = String::from_utf8_lossy(member.name);
    match member.library {
        Some(library) => format!("{}({name})", String::from_utf8_lossy(library)),
        None => name.to_string(),
    }
}

/// A body as it is; of cards one record a line, its source between bars.
fn show_body(layout: Layout, body: &[u8], output: &mut impl Write) -> io::Result<()> {
    if layout == Layout::Plain {
        output.write_all(body)?;
        return writeln!(output);
    }
    for record in body.chunks(80) {
        for (index, byte) in record.iter().enumerate() {
            if index == 1 || index == 72 {
                output.write_all(b"|")?;
            }
            output.write_all(&[*byte])?;
        }
        writeln!(output)?;
    }
    Ok(())
}

fn show_case(case: &Case, output: &mut impl Write) -> io::Result<()> {
    let record = &case.record;
    let (text, list) = (record.rooms.text, record.rooms.list);
    writeln!(output, "case       {}", case.name)?;
    writeln!(output, "layout     {}", layout_name(record.layout))?;
    writeln!(output, "text room  {text}\nlist room  {list}")?;
    writeln!(output, "steps      {}", record.steps)?;
    match deck::open(&record.deck) {
        Some(members) => {
            for (number, member) in members.iter().enumerate() {
                let name = full_name(member);
                let bytes = member.body.len();
                writeln!(output, "--- member {number}, {name}, {bytes} bytes")?;
                show_body(record.layout, member.body, output)?;
            }
        }
        None => {
            writeln!(output, "--- malformed deck, {} bytes", record.deck.len())?;
            writeln!(output, "{}", record.deck.escape_ascii())?;
        }
    }
    writeln!(output, "--- known answer")?;
    output.write_all(&case.answer)?;
    let answer = record.expand().printed();
    if answer == case.answer {
        return writeln!(output, "--- the referee answers the same");
    }
    writeln!(output, "--- the referee answers")?;
    output.write_all(&answer)
}
