//! Decks at the limits of number 4, where any kind of clause stands at the limit, with any labels and any ending; and
//! long names and deep expressions wherever they can stand. `edges` has the other limits.

mod body;
mod names;

use super::damage::split;
use super::programs::Bodies;
use super::random::Random;
use body::Body;

/// A deck at some limit.
pub fn limit(random: &mut Random) -> Bodies {
    match random.weighted(&[22, 12, 34, 12, 11, 9]) {
        0 => in_a_member(random),
        1 => in_those_entered(random),
        2 => names::names(random),
        3 => deep(random),
        4 => alone(long_names(random)),
        _ => alone(parentheses(random)),
    }
}

fn alone(body: Vec<u8>) -> Bodies {
    with_members(body, b"%;a".to_vec(), b"b".to_vec())
}

fn with_members(body: Vec<u8>, first: Vec<u8>, second: Vec<u8>) -> Bodies {
    Bodies {
        names: vec![b"MAIN".to_vec(), b"A".to_vec(), b"B".to_vec()],
        bodies: vec![body, first, second],
        ..Bodies::default()
    }
}

/// A few things open around a clause.
fn some_depth(random: &mut Random) -> usize {
    random.weighted(&[60, 20, 10, 10])
}

/// 1,020 to 1,025 sentences before a clause.
fn in_a_member(random: &mut Random) -> Bodies {
    let depth = some_depth(random);
    let before = random.weighted(&[1, 1, 4, 4, 10, 3]) + 1_020;
    let body = Body::up_to(random, before, depth).bytes;
    if random.one_in(4) {
        return with_members(b"%INCLUDE A;".to_vec(), body, b"b".to_vec());
    }
    alone(body)
}

/// 2,044 to 2,050 sentences before a clause of the member A, each inclusion counted.
fn in_those_entered(random: &mut Random) -> Bodies {
    const LISTS: &[&[&str]] = &[
        &["B", "A"],
        &["A", "A"],
        &["B", "B", "A"],
        &["A", "B", "A"],
        &["A", "A", "A"],
        &["B", "A", "B", "A"],
    ];
    let list = LISTS[random.below(LISTS.len())];
    let depth = some_depth(random);
    let all = random.between(2_044, 2_050);
    let (main, inside, other) = shares(random, list, all);
    let mut body = b"%;".repeat(main - 1);
    body.extend_from_slice(format!("%INCLUDE {};", list.join(",")).as_bytes());
    let first = Body::up_to(random, inside, depth).bytes;
    with_members(body, first, b"%;".repeat(other))
}

/// How many sentences the main program, A before its clause, and B have, so that together with what the list has entered
/// before they are as many as wanted.
fn shares(random: &mut Random, list: &[&str], all: usize) -> (usize, usize, usize) {
    let others = list.iter().filter(|name| name.starts_with('B')).count();
    let again = list.len() - others - 1;
    for _ in 0..50 {
        let inside = random.between(0, 1_000);
        let other = random.between(1, 1_024);
        let entered = inside + again * (inside + 1) + others * other;
        let main = all.saturating_sub(entered);
        if (1..=1_000).contains(&main) {
            return (main, inside, other);
        }
    }
    (1_000, 500, 500)
}

/// 13 to 19 things open around a clause.
fn deep(random: &mut Random) -> Bodies {
    let depth = random.between(13, 18);
    alone(Body::behind(random, b"%DCL X CHAR,I FIXED;".to_vec(), depth).bytes)
}

/// Where a name can stand, or cannot; `~` is the name.
const PLACES: &[&[u8]] = &[
    b"%~:A:~:;",
    b"%A:~:B:~:DO;%END ~;",
    b"%DO;%A:~:END;",
    b"%DO;%~:B:END A;",
    b"%P:PROC RETURNS(CHAR);RETURN(1);%A:~:B:END P;",
    b"%P:PROC RETURNS(CHAR);DO;A:~:END;RETURN(1);%END ~;",
    b"%~:P:PROC RETURNS(CHAR);RETURN(~);%END;",
    b"%P:PROC(A,~,B)RETURNS(CHAR);DCL (A,~,B) CHAR;RETURN(~);%END;",
    b"%P:PROC RETURNS(CHAR);DCL ~ BUILTIN;RETURN(1);%END;",
    b"%P:PROC RETURNS(CHAR);~=1;GOTO ~;RETURN(1);%END;",
    b"%P:PROC RETURNS(CHAR);IF 1 THEN ~=1;ELSE ~:;DO ~=1;END;RETURN(1);%END;",
    b"%P:PROC RETURNS(CHAR);~",
    b"%P:PROC RETURNS(CHAR);%~",
    b"%P:PROC RETURNS(CHAR);A:~:",
    b"%DCL ~ ENTRY,A CHAR;",
    b"%DCL A CHAR,~ FIXED;",
    b"%DCL (A,~,B) CHAR,(~,C) FIXED;",
    b"%DCL A CHAR,(B,~",
    b"%~=1;",
    b"%~(1);",
    b"%X=~(1);",
    b"%X=SUBSTR(~,~);",
    b"%X=1+~||~;",
    b"%X=(~);",
    b"%IF ~ %THEN %~=1;%ELSE %~:;",
    b"%IF 1 %THEN %;%ELSE ~;",
    b"%DO ~=~ TO ~ BY ~;%END ~;",
    b"%DO I=1 TO ~",
    b"%GOTO ~;%~:;",
    b"%GO TO ~;",
    b"%INCLUDE A,~;",
    b"%INCLUDE ~,A;",
    b"%INCLUDE A(~),~(B);",
    b"%INCLUDE B,~(~",
    b"%ACT A,~ NORESCAN;",
    b"%ACTIVATE ~ ~;",
    b"%DEACT A,~;",
    b"%~",
    b"%A:~",
    b"%~:",
    b"%~ ",
    b"%~ A;",
    b"%DO;%~",
    b"%IF 1 %THEN %; %~",
    b"%DCL MMMMMMMMMMMMMMMMMMMMMMMMMMMMMMM CHAR;%MMMMMMMMMMMMMMMMMMMMMMMMMMMMMMM='x';~ A~ '~' /*~*/",
];

/// Names of 30 to 33 bytes.
fn long_names(random: &mut Random) -> Vec<u8> {
    let place = random.word(PLACES);
    let mut body = Vec::new();
    for byte in place {
        match byte {
            b'~' if random.one_in(6) => body.extend_from_slice(b"C"),
            b'~' => {
                let letter = random.word(&[b"M", b"M", b"N"]);
                body.extend(letter.repeat(random.between(30, 33)));
            }
            byte => body.push(*byte),
        }
    }
    cut(random, body)
}

/// Where an expression can stand; `~` is the expression.
const EXPRESSIONS: &[&[u8]] = &[
    b"%X=~;X",
    b"%X=P(1,~);",
    b"%X=P(~,~)+~;",
    b"%X=SUBSTR(~,1);",
    b"%IF ~ %THEN %;",
    b"%DO I=~;%END;",
    b"%DO I=1 TO ~;%END;",
    b"%DO I=1 BY 1 TO ~;%END;",
    b"%Q:PROC RETURNS(FIXED);RETURN(~);%END;",
    b"%Q:PROC RETURNS(FIXED);IF ~ THEN I=~;RETURN(1);%END;",
];

/// Expressions with 14 to 18 parentheses, of argument lists or alone.
fn parentheses(random: &mut Random) -> Vec<u8> {
    let mut body =
        b"%DCL X CHAR,(I,N) FIXED;%P:PROC(A,B)RETURNS(FIXED);DCL (A,B) FIXED;RETURN(A);%END;"
            .to_vec();
    let place = random.word(EXPRESSIONS);
    for byte in place {
        match byte {
            b'~' => body.extend(nested(random)),
            byte => body.push(*byte),
        }
    }
    cut(random, body)
}

fn nested(random: &mut Random) -> Vec<u8> {
    let mut before = Vec::new();
    let mut behind: Vec<&[u8]> = Vec::new();
    for _ in 0..random.between(13, 18) {
        let (open, close): (&[u8], &[u8]) = match random.below(6) {
            0 => (b"P(", b",2)"),
            1 => (b"P(1,", b")"),
            2 => (b"SUBSTR(", b",1)"),
            3 => (b"1+(", b")"),
            4 => (b"-( ", b")*2"),
            _ => (b"(", b")"),
        };
        before.extend_from_slice(open);
        behind.push(close);
    }
    before.extend_from_slice(random.word(&[b"1", b"1", b"N", b"P(1,1)", b"(1)", b""]));
    for close in behind.iter().rev() {
        before.extend_from_slice(close);
    }
    before
}

/// A body as it is, or ended behind one of its tokens.
fn cut(random: &mut Random, body: Vec<u8>) -> Vec<u8> {
    if random.percent(60) {
        return body;
    }
    let mut tokens = split(&body);
    tokens.truncate(random.between(1, tokens.len()));
    let mut body = tokens.concat();
    body.extend_from_slice(random.word(&[b"", b"", b"?", b"'", b"/*", b"%", b";", b" "]));
    body
}
