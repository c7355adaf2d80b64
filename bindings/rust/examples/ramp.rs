//! Expands a program with a member, and prints what came out: the text, and where each part of it came from.

use std::error::Error;

use muharegoden::{Layout, Limits, Member, expand, meaning, pack};

fn main() -> Result<(), Box<dyn Error>> {
    let main = Member {
        library: None,
        name: "MAIN",
        body: b"%INCLUDE LIMITS;CALL RAMP(LOW, HIGH);",
    };
    let limits = Member {
        library: None,
        name: "LIMITS",
        body: b"%DCL (LOW, HIGH) FIXED;%LOW=500;%HIGH=900;",
    };
    let answer = expand(&pack(&[main, limits])?, Layout::Plain, Limits::default())?;
    println!(
        "{}: {} steps",
        meaning(answer.number).unwrap_or("unknown"),
        answer.steps
    );
    println!("{}", String::from_utf8_lossy(&answer.text));
    for line in &answer.lines {
        println!(
            "{:?} {} {} {}",
            line.kind, line.member, line.offset, line.length
        );
    }
    Ok(())
}
