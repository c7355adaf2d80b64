//! Numbers put for names in text, joined, cut and passed, so that steps and rooms end anywhere in them.

use super::programs::Bodies;
use super::random::Random;

/// Two variables and a loop's, two values made of them, and a procedure for each type.
const DECLARED: &str = "%DCL (F,G,I) FIXED,(C,D) CHAR;%ACT P,Q;\
    %P:PROC(A)RETURNS(CHAR);DCL A CHAR;RETURN('<'||A||'>');%END;\
    %Q:PROC(A)RETURNS(FIXED);DCL A FIXED;RETURN(A-1);%END;";

/// Numbers of each length, and one that leaves the range if it is stepped.
const NUMBERS: &[&str] = &[
    "0", "7", "-1", "9", "10", "-10", "100", "-1234", "12345", "99999", "-99999",
];

/// Values of C and D: names, strings, comments and calls with numbers in them.
const JOINED: &[&str] = &[
    "F",
    "F||G",
    "'F'||F",
    "G||'F'",
    "'P('||F||')'",
    "'Q('||G||')'",
    "'Q(-'||F||')'",
    "''''||F",
    "'/*'||G||'*/F'",
    "'F'||SUBSTR(F,8)",
    "'-'||SUBSTR(G,8)",
    "SUBSTR(F,3,4)||SUBSTR(G,9)",
    "P(F)||Q(G)",
    "F=G",
];

/// Text in which most names are numbers.
const PIECES: &[&str] = &[
    "F", "F", "G", "G", "I", "C", "D", "(F)", "F.G", "'F'", "1F", "P(F)", "P( G )", "P(C)",
    "P(D F)", "Q(G)", "Q(Q(F))", "P(Q(G)D)", "F(G)",
];

/// Calls that most numbers do not fit.
const MISFITS: &[&str] = &["Q(-F)", "Q(F G)", "Q(C)", "Q(D)", "P(F,G)", "Q(G1)"];

/// Conditions with a number on a side, or its characters or bits.
const CONDITIONS: &[&str] = &[
    "F<G",
    "''||F<(''||G)",
    "F=(''||F)",
    "SUBSTR(F,8)=G",
    "C>=D",
    "C=''||F",
    "F&G",
    "F",
    "SUBSTR('1'||F,1,1)",
    "SUBSTR(F,7)",
];

/// A program of such statements and text.
pub fn numbers(random: &mut Random) -> Bodies {
    let mut body = DECLARED.to_string();
    for name in ["F", "G", "I"] {
        body += &format!("%{name}={};", one_of(random, NUMBERS));
    }
    for name in ["C", "D"] {
        body += &format!("%{name}={};", one_of(random, JOINED));
    }
    for _ in 0..random.between(1, 5) {
        body += &statement(random);
        body += &text(random);
    }
    Bodies {
        names: vec![b"MAIN".to_vec()],
        bodies: vec![body.into_bytes()],
        ..Bodies::default()
    }
}

fn one_of<'a>(random: &mut Random, words: &[&'a str]) -> &'a str {
    random.pick(words).copied().unwrap_or("")
}

fn statement(random: &mut Random) -> String {
    match random.below(7) {
        0 => format!("%F={};", one_of(random, NUMBERS)),
        1 => format!("%C={};", one_of(random, JOINED)),
        2 => "%ACT F NORESCAN,C NORESCAN;".to_string(),
        3 => "%ACT G NORESCAN,D NORESCAN,P NORESCAN;".to_string(),
        4 => format!("%IF {} %THEN %;", one_of(random, CONDITIONS)),
        _ => {
            let start = random.between(7, 9);
            let inside = text(random);
            format!(
                "%DO I={start} TO {};I,{inside}%END;",
                start + random.below(4)
            )
        }
    }
}

/// Some pieces; what stands between them keeps most names apart.
fn text(random: &mut Random) -> String {
    let mut text = String::new();
    for _ in 0..random.below(5) {
        text += one_of(random, &["+", ";", " ", " ", ""]);
        text += match random.one_in(20) {
            true => one_of(random, MISFITS),
            false => one_of(random, PIECES),
        };
    }
    text
}
