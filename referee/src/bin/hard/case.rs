//! The hardest decks in mixed case (request C-15), and some where case alone decides.

use referee::cards::Layout;

use super::{
    all_at_once, arguments_in_text, arguments_nested, assignments, expression, goto_far,
    include_many, many_names, names, names_far, one_name, replacement, text_of_names, Bodies, Deck,
    LibraryDeck, Shelved,
};

pub const DECKS: &[Deck] = &[
    ("case-names-256", 0, || mixed(names(256))),
    ("case-names-257", 4, || mixed(names(257))),
    ("case-names-far", 0, || mixed(names_far())),
    ("case-names-twice", 5, || long_names(256, "")),
    ("case-names-twice-past", 5, || long_names(257, "")),
    ("case-names-twice-and-one-more", 4, || long_names(257, ",A")),
    ("case-text-of-names", 0, || mixed(text_of_names())),
    ("case-text-of-one-name", 0, text_of_one_name),
    ("case-text-of-joined-names", 0, text_of_joined_names),
    ("case-replacement-32", 0, || mixed(replacement(32))),
    ("case-replacement-33", 15, || mixed(replacement(33))),
    ("case-replacement-of-itself", 15, || {
        vec!["%DCL A CHAR;%A='a';A".to_string()]
    }),
    ("case-replacement-in-arguments-32", 0, || {
        mixed(arguments_nested(32))
    }),
    ("case-replacement-in-arguments-33", 15, || {
        mixed(arguments_nested(33))
    }),
    ("case-arguments-255", 0, || mixed(arguments_in_text(255))),
    ("case-include-32-members", 0, || mixed(include_many())),
    ("case-all-at-once", 0, || mixed(all_at_once("('1')"))),
    ("case-all-at-once-and-too-deep", 12, || {
        mixed(all_at_once("P1(A)"))
    }),
    ("case-assignments-1000000", 0, || mixed(assignments())),
    ("case-goto-far", 18, || mixed(goto_far())),
    ("case-name-60000", 0, || vec!["aB".repeat(30_000)]),
    ("case-name-in-statement", 4, || {
        expression(&"aB".repeat(30_000))
    }),
    ("case-digits-and-letters-60000", 0, || {
        vec!["1a".repeat(30_000)]
    }),
    ("case-strings-differ", 0, strings_differ),
];

pub const CARD_DECKS: &[Deck] = &[
    ("cards-case-names-256", 0, || mixed(names(256))),
    ("cards-case-text-of-one-name", 0, text_of_one_name),
    ("cards-case-all-at-once", 0, || mixed(all_at_once("('1')"))),
];

pub const LIBRARY_DECKS: &[LibraryDeck] = &[
    ("libraries-case-32", 0, Layout::Plain, || {
        mixed_lines(one_name(32))
    }),
    ("libraries-case-names-256", 0, Layout::Plain, || {
        mixed_lines(many_names(256))
    }),
    ("libraries-case-names-257", 4, Layout::Plain, || {
        mixed_lines(many_names(257))
    }),
    ("libraries-case-twice", 1, Layout::Plain, last_again),
    ("cards-libraries-case-32", 0, Layout::Cards, || {
        mixed_lines(one_name(32))
    }),
];

/// A text with two letters of three in lower case, whatever they belong to.
fn in_mixed_case(text: &str) -> String {
    let mixed = text.chars().enumerate().map(|(at, letter)| match at % 3 {
        1 => letter.to_ascii_uppercase(),
        _ => letter.to_ascii_lowercase(),
    });
    mixed.collect()
}

fn mixed(bodies: Bodies) -> Bodies {
    bodies.iter().map(|body| in_mixed_case(body)).collect()
}

/// Names of contents begin in lower case in every other line.
fn mixed_lines(lines: Vec<Shelved>) -> Vec<Shelved> {
    let recased = |(at, (library, name, body)): (usize, Shelved)| {
        let front = " ".repeat(at % 2);
        let of = |name: &str| in_mixed_case(&format!("{front}{name}")).trim().to_string();
        (of(&library), of(&name), in_mixed_case(&body))
    };
    lines.into_iter().enumerate().map(recased).collect()
}

/// Names of 31 bytes that differ in their ends; the last is the first in another case, and then something more.
fn long_names(count: usize, more: &str) -> Bodies {
    let long = |number: usize| in_mixed_case(&format!("{}{number:03}", "n".repeat(28)));
    let mut all: Vec<String> = (1..count).map(long).collect();
    all.push(long(1).to_uppercase());
    vec![format!("%dcl ({}{more}) fixed;", all.join(","))]
}

/// The last of 256 names of 31 bytes, met 1,400 times in any case.
fn text_of_one_name() -> Bodies {
    let long = |number: usize| format!("{}{number:03}", "N".repeat(28));
    let all: Vec<String> = (1..=256).map(long).collect();
    let last = long(256);
    let text = in_mixed_case(&format!("{last}+-").repeat(1_400));
    vec![format!("%DCL ({}) CHAR;%{last}='1';{text}", all.join(","))]
}

/// Names of 31 bytes that a letter in lower case joins to what is no name.
fn text_of_joined_names() -> Bodies {
    let long = "N".repeat(31);
    let text = format!("x{long} {long}x 1{long} ").repeat(500);
    vec![format!("%DCL {long} CHAR;%{long}='1';{text}")]
}

/// Two sides of 512 places that differ in the case of the last, 20,000 times.
fn strings_differ() -> Bodies {
    let side = "v".repeat(511);
    let passes = "do i=1 to 20000;if V=w then return('');end;";
    vec![format!(
        "%p:proc returns(char);dcl i fixed,(v,w) char;v='{side}x';W='{side}X';{passes}return('1');%end;%act P;p"
    )]
}

/// 32 lines, of which the last is the second in another case.
fn last_again() -> Vec<Shelved> {
    let mut lines = one_name(32);
    let (library, name, _) = &lines[1];
    let (library, name) = (library.to_lowercase(), name.to_lowercase());
    lines[31] = (library, name, String::new());
    lines
}
