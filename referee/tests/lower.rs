//! Lower case (request C-15): expectations worked out by hand from the request, from 01 and from the readings.
//!
//! `%DCL A CHAR;%A='1';` has 19 bytes, two sentences with a blank behind each, at 12 and 19, and costs two steps.

use referee::cards::Layout;
use referee::{expand, Answer, Rooms};

const ROOMS: Rooms = Rooms {
    text: 65_536,
    list: 49_152,
};
const STEPS: u32 = 1_000_000;
const ONE: &str = "%DCL A CHAR;%A='1';";

/// A line of contents: library, name and body. No library: the first layout.
type Line<'a> = (&'a str, &'a str, &'a [u8]);

fn deck(lines: &[Line]) -> Vec<u8> {
    let (width, more) = match lines[0].0 {
        "" => (16, 0),
        _ => (24, 256),
    };
    let mut offset = 2 + width * lines.len();
    let mut deck = (more + lines.len() as u16).to_le_bytes().to_vec();
    for (library, name, body) in lines {
        let names = [library, name].into_iter().filter(|name| !name.is_empty());
        deck.extend(names.flat_map(|name| format!("{name:8}").into_bytes()));
        deck.extend((offset as u32).to_le_bytes());
        deck.extend((body.len() as u32).to_le_bytes());
        offset += body.len();
    }
    deck.extend(lines.iter().flat_map(|line| line.2));
    deck
}

fn answer(lines: &[Line]) -> Answer {
    expand(&deck(lines), Layout::Plain, ROOMS, STEPS)
}

/// The main program alone.
fn alone(main: &[u8]) -> Answer {
    answer(&[("", "MAIN", main)])
}

fn printed(answer: &Answer) -> String {
    answer.printed().escape_ascii().to_string()
}

/// The program finishes with these steps, lines and text.
fn gives(main: &str, steps: u32, lines: &[&str], text: &str) {
    let (length, count) = (text.len(), lines.len());
    let numbers = format!("0 0 0 {steps} {length} {count}\n");
    let lines: String = lines.iter().map(|line| format!("{line}\n")).collect();
    let expected = format!("{numbers}{lines}{text}\n");
    let expected = expected.as_bytes().escape_ascii().to_string();
    assert_eq!(printed(&alone(main.as_bytes())), expected, "{main}");
}

/// Behind the value 1 of A this text takes so many steps and gives this.
fn with_one(text: &str, steps: u32, lines: &[&str], outcome: &str) {
    let mut all = vec!["B 0 12 1", "B 0 19 1"];
    all.extend(lines);
    gives(
        &format!("{ONE}{text}"),
        2 + steps,
        &all,
        &format!("  {outcome}"),
    );
}

fn is_refused(main: &str, numbers: &str) {
    let got = printed(&alone(main.as_bytes()));
    assert_eq!(got, format!("{numbers}\\n\\n"), "{main}");
}

#[test]
fn tokens_of_a_scan_join() {
    for token in [
        "xA", "Ax", "1a", "12a", "a1", "a_", "1_a", "$a", "a@", "aA", "aa",
    ] {
        let line = format!("C 0 19 {}", token.len());
        with_one(token, 1, &[&line], token);
    }
    // `_` begins no token of letters: A is met behind it.
    with_one("_a", 3, &["C 0 19 1", "V 0 20 1"], "_1");
    with_one("a.A", 5, &["V 0 19 1", "C 0 20 1", "V 0 21 1"], "1.1");
    with_one("'a'/*a*/", 2, &["C 0 19 8"], "'a'/*a*/");
}

#[test]
fn every_lower_case_letter_is_its_upper_case_one() {
    for (lower, upper) in ('a'..='z').zip('A'..='Z') {
        let main = format!("%DCL {lower} CHAR;%{upper}='1';{upper}{lower}+{lower}");
        let lines = ["B 0 12 1", "B 0 19 1", "C 0 19 3", "V 0 22 1"];
        gives(&main, 6, &lines, &format!("  {upper}{lower}+1"));
    }
}

#[test]
fn no_other_byte_becomes_a_letter() {
    let letters = |byte: &u8| byte.is_ascii_alphanumeric() || b"$@#_".contains(byte);
    for byte in (0..=255).filter(|byte| !letters(byte) && !b"%'".contains(byte)) {
        // Two tokens, and the second is A.
        let main = [ONE.as_bytes(), &[byte], b"a"].concat();
        let text = [&b"  "[..], &[byte], b"1"].concat();
        let got = alone(&main);
        assert_eq!((got.steps, got.text), (5, text), "byte {byte}");
        // No name of a statement goes on with it, and none begins with it.
        let spaces = b" \n%;:=".contains(&byte);
        let main = [&b"%X"[..], &[byte], b"Y:;"].concat();
        let got = alone(&main);
        assert!(spaces || (got.number, got.offset) == (3, 2), "byte {byte}");
    }
}

#[test]
fn keywords_in_any_case() {
    let lines = [
        "B 0 13 1", "B 0 26 1", "C 0 26 1", "B 0 26 1", "C 0 26 1", "B 0 32 1",
    ];
    for main in [
        "%dcl i fixed;%do i=1 to 2;x%end;",
        "%DcL I fIxEd;%Do i=1 tO 2;x%EnD;",
    ] {
        gives(main, 6, &lines, "  x x ");
    }
    is_refused("%foo bar;", "3 0 5 0 0 0");
    is_refused("%dox;", "3 0 4 0 0 0");
}

#[test]
fn words_are_not_reserved_in_any_case() {
    gives(
        "%dcl If char;%iF='1';IF",
        4,
        &["B 0 13 1", "B 0 21 1", "V 0 21 1"],
        "  1",
    );
    // An assignment behind THEN: the blank before it is text.
    gives(
        "%dcl Else char;%if 1 %then %; %eLSE='';",
        5,
        &["B 0 15 1", "B 0 29 1", "C 0 29 1", "B 0 39 1"],
        "    ",
    );
}

#[test]
fn names_equal_but_for_case_are_one() {
    is_refused("%DCL A FIXED,a FIXED;", "5 0 13 0 0 0");
    is_refused("%a:A:;", "5 0 3 0 0 0");
    is_refused(
        "%P:PROC(A,b,a)RETURNS(CHAR);RETURN(1);%END;",
        "5 0 12 0 0 0",
    );
    is_refused("%DO;%x:END X;", "3 0 11 0 0 0");
    is_refused("%ab:DO;%END ac;", "3 0 12 0 0 0");
    gives(
        "%ab:DO;x%END AB;",
        2,
        &["B 0 7 1", "C 0 7 1", "B 0 16 1"],
        " x ",
    );
    gives("%GOTO ab;x%AB:;y", 3, &["B 0 15 1", "C 0 15 1"], " y");
}

#[test]
fn local_names_come_before_global_ones() {
    // The global A keeps its value: DECLARE, assignment, procedure, ACT; P, its three statements; `+`, A and its value.
    let procedure = "%P:PROC RETURNS(CHAR);DCL a CHAR;A='2';RETURN(a);%END;%ACT p NORESCAN;";
    let end = 19 + procedure.len();
    let lines = [
        "B 0 12 1".to_string(),
        "B 0 19 1".to_string(),
        format!("B 0 {} 1", end - 16),
        format!("B 0 {end} 1"),
        format!("V 0 {end} 1"),
        format!("C 0 {} 1", end + 1),
        format!("V 0 {} 1", end + 2),
    ];
    let lines: Vec<&str> = lines.iter().map(String::as_str).collect();
    gives(&format!("{ONE}{procedure}p+a"), 11, &lines, "    2+1");
}

#[test]
fn values_are_scanned_by_the_same_letters() {
    is_refused("%DCL A CHAR;%A='a';A", "15 0 19 35 0 0");
    // W holds `xA a`: three tokens, the last is A.
    let main = format!("{ONE}%DCL W CHAR;%W='xA a';w");
    let lines = ["B 0 12 1", "B 0 19 1", "B 0 31 1", "B 0 41 1", "V 0 41 4"];
    gives(&main, 9, &lines, "    xA 1");
}

#[test]
fn strings_are_not_folded() {
    let chosen = |test: &str| {
        let main = format!("%IF {test} %THEN %DO;Y%END;%ELSE %DO;N%END;");
        String::from_utf8(alone(main.as_bytes()).text).expect("letters")
    };
    for test in ["'a'='A'", "'a'^>'Z'", "'aB'='ab'", "substr('aB',2)='b'"] {
        assert_eq!(chosen(test), " N ", "{test}");
    }
    for test in ["'a'>'A'", "'a'>'Z'", "'aB'='aB '", "substr('aB',2)='B'"] {
        assert_eq!(chosen(test), " Y ", "{test}");
    }
    is_refused("%DCL F FIXED;%F='a';", "8 0 13 2 0 0");
}

#[test]
fn b_behind_a_bit_string() {
    let lines = ["B 0 12 1", "B 0 21 1", "V 0 21 2"];
    gives("%DCL A CHAR;%A='10'b;a", 4, &lines, "  10");
    // Bits are padded with zeros, characters with blanks.
    let test = "%IF '1'b='10'B %THEN %DO;Y%END;";
    gives(test, 3, &["B 0 25 1", "C 0 25 1", "B 0 31 1"], " Y ");
    is_refused("%X='12'b;", "3 0 7 0 0 0");
    is_refused("%X='1'by;", "3 0 7 0 0 0");
    is_refused("%X='1'c;", "3 0 6 0 0 0");
}

#[test]
fn long_names_of_lower_case() {
    let (most, more) = ("a".repeat(31), "a".repeat(32));
    is_refused(&format!("%{more}=1;"), "4 0 1 0 0 0");
    is_refused(&format!("%DCL {more} FIXED;"), "4 0 5 0 0 0");
    let main = format!(
        "%DCL {most} CHAR;%{}='1';{most}.{more}",
        most.to_uppercase()
    );
    let lines = ["B 0 42 1", "B 0 79 1", "V 0 79 1", "C 0 110 33"];
    // The two tokens behind it, and the value's one.
    gives(&main, 6, &lines, &format!("  1.{more}"));
}

#[test]
fn names_of_contents() {
    let main = ("", "MAIN", &b""[..]);
    for (first, second) in [
        ("ab", "AB"),
        ("aB", "Ab"),
        ("abcdefgh", "ABCDEFGH"),
        ("main", "A"),
    ] {
        let got = answer(&[main, ("", first, b""), ("", second, b"")]);
        assert_eq!(got.number, 1, "{first} {second}");
    }
    for name in ["`", "{", "a`", "z{", "a-", "1a", "_a"] {
        assert_eq!(answer(&[main, ("", name, b"")]).number, 1, "{name}");
    }
    assert_eq!(answer(&[main, ("", "ab", b""), ("", "ABC", b"")]).number, 0);
    // As pairs both halves are folded, and one that differs is enough.
    let main = ("L", "MAIN", &b""[..]);
    for (library, name, number) in [
        ("k", "a", 1),
        ("K", "a", 1),
        ("k", "A", 1),
        ("k", "b", 0),
        ("j", "a", 0),
    ] {
        let got = answer(&[main, ("K", "A", b""), (library, name, b"")]);
        assert_eq!(got.number, number, "{library} {name}");
    }
}

#[test]
fn members_are_met_in_any_case() {
    let lines = "0 0 0 2 3 3\\nB 1 0 1\\nC 1 0 1\\nB 0 12 1\\n B \\n";
    for (item, name) in [("ab", "AB"), ("AB", "ab"), ("aB", "Ab")] {
        let main = format!("%INCLUDE {item};");
        let got = answer(&[("", "main", main.as_bytes()), ("", name, b"B")]);
        assert_eq!(printed(&got), lines, "{item} {name}");
    }
    let main = b"%include k(limits),limits;";
    let got = answer(&[
        ("L", "MAIN", main),
        ("J", "Limits", b"1"),
        ("K", "lIMITS", b"2"),
    ]);
    assert_eq!(got.text, b" 2 1 ");
    let got = answer(&[("", "MAIN", b"%INCLUDE main;")]);
    assert_eq!(printed(&got), "15 0 0 9 0 0\\n\\n");
}
