//! Card images (request C-11): expectations worked out by hand from its sentences.
//!
//! Column c of the first record is offset c - 1 of the body, so its source is at the offsets 1 to 71; that of the
//! second record is at 81 to 151, that of the third at 161 to 231.

use std::fs;
use std::path::Path;
use std::slice;

use referee::cards::Layout;
use referee::{expand, Answer, Rooms};

const ROOMS: Rooms = Rooms {
    text: 65_536,
    list: 49_152,
};
const STEPS: u32 = 100_000;

/// A record: a byte for the printer, 71 columns of source, a sequence field.
fn record(source: &str) -> Vec<u8> {
    assert_eq!(source.len(), 71, "columns of {source}");
    [b"1", source.as_bytes(), b"00000010"].concat()
}

fn body(records: &[String]) -> Vec<u8> {
    records.iter().flat_map(|source| record(source)).collect()
}

/// A deck of a main program and the members A, B and so on.
fn deck(bodies: &[Vec<u8>]) -> Vec<u8> {
    let mut deck = vec![bodies.len() as u8, 0];
    let mut offset = 2 + 16 * bodies.len();
    for (name, body) in [b"MAIN    ", b"A       ", b"B       "].iter().zip(bodies) {
        deck.extend(*name);
        deck.extend((offset as u32).to_le_bytes());
        deck.extend((body.len() as u32).to_le_bytes());
        offset += body.len();
    }
    deck.extend(bodies.concat());
    deck
}

fn answer(bodies: &[Vec<u8>], rooms: Rooms, steps: u32) -> Answer {
    expand(&deck(bodies), Layout::Cards, rooms, steps)
}

/// The six numbers and the lines, as the program prints them.
fn shown(answer: &Answer) -> Vec<String> {
    let behind_lines = answer.text.len() + 1;
    let printed = answer.printed();
    let shown = String::from_utf8_lossy(&printed[..printed.len() - behind_lines]);
    shown.lines().map(str::to_string).collect()
}

/// Expands a main program of these records.
fn main_program(records: &[String]) -> Answer {
    answer(&[body(records)], ROOMS, STEPS)
}

/// A finished main program has these numbers, lines and text.
fn finishes(records: &[String], expected: &[&str], text: &str) {
    let answer = main_program(records);
    assert_eq!(shown(&answer), expected);
    assert_eq!(String::from_utf8_lossy(&answer.text), text);
}

/// A main program of these records is refused so.
fn is_refused(records: &[String], expected: &str) {
    assert_eq!(shown(&main_program(records)), [expected]);
}

/// A comment of so many bytes: one token of text.
fn comment(length: usize) -> String {
    format!("/*{}*/", "-".repeat(length - 4))
}

/// A record of a comment and what stands behind it, up to column 72.
fn ending_in(source: &str) -> String {
    comment(71 - source.len()) + source
}

/// A record of what begins in column 2, and a comment behind it.
fn beginning_with(source: &str) -> String {
    source.to_string() + &comment(71 - source.len())
}

/// Both records are text: each is a stretch, and three tokens are three steps.
fn is_one_token(front: &str, back: &str) {
    let records = [ending_in(front), beginning_with(back)];
    let lines = ["0 0 0 3 143 3", "B 0 1 1", "C 0 1 71", "C 0 81 71"];
    finishes(&records, &lines, &format!(" {}", records.concat()));
}

#[test]
fn a_token_of_text_crosses_an_edge() {
    is_one_token("AB", "CD");
    is_one_token("1", "B_2");
    is_one_token("'", "A'");
    is_one_token("'A", "'");
    is_one_token("/", "*%'*/");
    is_one_token("/*%'*", "/");
}

#[test]
fn what_ends_in_column_72_is_a_token_and_what_begins_in_column_2_another() {
    let records = [ending_in("'A'"), beginning_with("'B'")];
    let lines = ["0 0 0 4 143 3", "B 0 1 1", "C 0 1 71", "C 0 81 71"];
    finishes(&records, &lines, &format!(" {}", records.concat()));
}

#[test]
fn a_token_of_text_crosses_two_edges() {
    for (first, last) in [("A", "B"), ("'", "'"), ("/*", "*/")] {
        let records = [ending_in(first), "C".repeat(71), beginning_with(last)];
        let lines = [
            "0 0 0 3 214 4",
            "B 0 1 1",
            "C 0 1 71",
            "C 0 81 71",
            "C 0 161 71",
        ];
        finishes(&records, &lines, &format!(" {}", records.concat()));
    }
}

#[test]
fn a_percent_in_column_72() {
    let records = [ending_in("%"), beginning_with("DCL A FIXED;")];
    let lines = [
        "0 0 0 3 131 4",
        "B 0 1 1",
        "C 0 1 70",
        "B 0 93 1",
        "C 0 93 59",
    ];
    finishes(
        &records,
        &lines,
        &format!(" {} {}", comment(70), comment(59)),
    );
}

#[test]
fn a_percent_in_column_2() {
    let records = [comment(71), beginning_with("%DCL A FIXED;")];
    let lines = [
        "0 0 0 3 131 4",
        "B 0 1 1",
        "C 0 1 71",
        "B 0 94 1",
        "C 0 94 58",
    ];
    finishes(
        &records,
        &lines,
        &format!(" {} {}", comment(71), comment(58)),
    );
}

#[test]
fn a_keyword_crosses_an_edge() {
    let records = [ending_in("%DE"), beginning_with("CLARE A FIXED;")];
    let lines = [
        "0 0 0 3 127 4",
        "B 0 1 1",
        "C 0 1 68",
        "B 0 95 1",
        "C 0 95 57",
    ];
    finishes(
        &records,
        &lines,
        &format!(" {} {}", comment(68), comment(57)),
    );
}

#[test]
fn a_keyword_crosses_two_edges_with_blanks_behind_it() {
    let records = [
        ending_in("%D"),
        format!("CL{}", " ".repeat(69)),
        beginning_with("A FIXED;"),
    ];
    let lines = [
        "0 0 0 3 134 4",
        "B 0 1 1",
        "C 0 1 69",
        "B 0 169 1",
        "C 0 169 63",
    ];
    finishes(
        &records,
        &lines,
        &format!(" {} {}", comment(69), comment(63)),
    );
}

#[test]
fn a_replaced_name_crosses_an_edge() {
    let statements = "%DCL AB CHAR;%AB='x';";
    let records = [format!("{statements}{}A", comment(49)), beginning_with("B")];
    let lines = [
        "0 0 0 6 122 5",
        "B 0 14 1",
        "B 0 22 1",
        "C 0 22 49",
        "V 0 71 1",
        "C 0 82 70",
    ];
    finishes(
        &records,
        &lines,
        &format!("  {}x{}", comment(49), comment(70)),
    );
}

/// A value is copied from no source, so no edge cuts it.
#[test]
fn a_replacement_is_never_cut() {
    let value = "v".repeat(50);
    let records = [
        beginning_with("%DCL V CHAR;"),
        beginning_with(&format!("%V='{value}';")),
        beginning_with("%ACT V NORESCAN;V"),
    ];
    let lines = [
        "0 0 0 7 181 7",
        "B 0 13 1",
        "C 0 13 59",
        "B 0 137 1",
        "C 0 137 15",
        "B 0 177 1",
        "V 0 177 50",
        "C 0 178 54",
    ];
    let texts = [comment(59), comment(15), format!("{value}{}", comment(54))];
    finishes(&records, &lines, &format!(" {}", texts.join(" ")));
}

const PROCEDURE: &str = "%DCL P ENTRY;%P:PROC(A)RETURNS(CHAR);DCL A CHAR;RETURN(A);%END;";

#[test]
fn an_argument_list_stands_behind_an_edge() {
    let records = [format!("{PROCEDURE}/**/P   "), beginning_with("(y)")];
    let lines = [
        "0 0 0 9 75 5",
        "B 0 14 1",
        "B 0 64 1",
        "C 0 64 4",
        "V 0 68 1",
        "C 0 84 68",
    ];
    finishes(&records, &lines, &format!("  /**/y{}", comment(68)));
}

#[test]
fn an_argument_list_crosses_an_edge() {
    let records = [format!("{PROCEDURE}/**/P(y,"), beginning_with("z)")];
    // One argument too many; the place is the name's.
    is_refused(&records, "11 0 68 4 0 0");
    let records = [format!("{PROCEDURE}/**/P('y"), beginning_with("z')")];
    let lines = [
        "0 0 0 9 78 5",
        "B 0 14 1",
        "B 0 64 1",
        "C 0 64 4",
        "V 0 68 4",
        "C 0 84 68",
    ];
    finishes(&records, &lines, &format!("  /**/'yz'{}", comment(68)));
}

#[test]
fn a_label_crosses_an_edge() {
    let records = [ending_in("%GOTO LM;%L"), beginning_with("M:;")];
    let lines = [
        "0 0 0 4 130 4",
        "B 0 1 1",
        "C 0 1 60",
        "B 0 84 1",
        "C 0 84 68",
    ];
    finishes(
        &records,
        &lines,
        &format!(" {} {}", comment(60), comment(68)),
    );
}

#[test]
fn constants_and_operators_cross_an_edge() {
    let statements = "%DCL R CHAR;%R=";
    for (front, back, value) in [
        ("'a'", "'b'", "a'b"),
        ("'a", "b'", "ab"),
        ("1", "2", "      12"),
        ("'1'", "B", "1"),
        ("1|", "|2", "       1       2"),
        ("1^", "=2", "1"),
        ("1>", "=2", "0"),
        ("SUB", "STR(45,8)", "5"),
    ] {
        let filler = " ".repeat(71 - statements.len() - front.len());
        let records = [
            format!("{statements}{filler}{front}"),
            beginning_with(&format!("{back};%ACT R NORESCAN;R")),
        ];
        let text = main_program(&records).text;
        let expected = format!("   {value}/*");
        assert!(text.starts_with(expected.as_bytes()), "{front} {back}");
    }
}

#[test]
fn a_read_error_behind_an_edge_and_before_it() {
    is_refused(
        &[ending_in("%FOO "), beginning_with("BAR;")],
        "3 0 81 0 0 0",
    );
    is_refused(
        &[ending_in("%FOO"), beginning_with(" BAR;")],
        "3 0 82 0 0 0",
    );
    is_refused(&[ending_in("%FO B"), beginning_with("AR;")], "3 0 71 0 0 0");
    is_refused(&[ending_in("'"), "-".repeat(71)], "3 0 71 0 0 0");
    is_refused(
        &[comment(71), "'".to_string() + &"-".repeat(70)],
        "3 0 81 0 0 0",
    );
    is_refused(&[ending_in("%A;/"), "*".repeat(71)], "3 0 70 0 0 0");
    is_refused(&[ending_in("%A:/"), "*".repeat(71)], "3 0 71 0 0 0");
}

#[test]
fn a_read_error_at_the_end_of_the_body() {
    is_refused(&[beginning_with("%DO;")], "3 0 80 0 0 0");
    is_refused(&[comment(71), beginning_with("%DO;")], "3 0 160 0 0 0");
    is_refused(&[ending_in("%")], "3 0 80 0 0 0");
    is_refused(&[ending_in("%X=1")], "3 0 80 0 0 0");
}

#[test]
fn a_long_name_across_an_edge() {
    let long = |length: usize| "N".repeat(length);
    is_refused(
        &[
            ending_in(&format!("%{}", long(11))),
            beginning_with(&format!("{}=1;", long(21))),
        ],
        "4 0 61 0 0 0",
    );
    // 31 bytes are a name; it is unknown, which the run tells at the `%`.
    is_refused(
        &[
            ending_in(&format!("%{}", long(11))),
            beginning_with(&format!("{}=1;", long(20))),
        ],
        "6 0 60 2 0 0",
    );
}

#[test]
fn a_name_declared_twice_behind_an_edge() {
    is_refused(
        &[ending_in("%DCL X FIXED;%DCL "), beginning_with("X CHAR;")],
        "5 0 81 0 0 0",
    );
}

#[test]
fn a_run_error_behind_an_edge() {
    is_refused(&[comment(71), beginning_with("%X=1;")], "6 0 81 2 0 0");
    is_refused(&[ending_in("%"), beginning_with("X=1;")], "6 0 71 2 0 0");
    is_refused(
        &[ending_in("%DCL X CHAR;"), beginning_with("X")],
        "7 0 81 3 0 0",
    );
    is_refused(
        &[comment(71), beginning_with("%INCLUDE C;")],
        "14 0 81 2 0 0",
    );
    let two = body(&[comment(71), comment(71)]);
    let numbers = shown(&answer(&[two], ROOMS, 1));
    assert_eq!(numbers, ["18 0 81 1 0 0"]);
}

#[test]
fn an_inserted_blank_behind_an_edge_and_at_the_end() {
    let records = [ending_in("%DCL A FIXED;"), comment(71)];
    let lines = [
        "0 0 0 3 131 4",
        "B 0 1 1",
        "C 0 1 58",
        "B 0 81 1",
        "C 0 81 71",
    ];
    finishes(
        &records,
        &lines,
        &format!(" {} {}", comment(58), comment(71)),
    );
    let records = [comment(71), ending_in("%DCL A FIXED;")];
    let lines = [
        "0 0 0 3 131 4",
        "B 0 1 1",
        "C 0 1 71",
        "C 0 81 58",
        "B 0 160 1",
    ];
    finishes(
        &records,
        &lines,
        &format!(" {}{} ", comment(71), comment(58)),
    );
}

#[test]
fn a_full_room_at_the_second_piece_of_a_token() {
    let bodies = [body(&[ending_in("AB"), beginning_with("CD")])];
    let with = |text: u32, list: u32| shown(&answer(&bodies, Rooms { text, list }, STEPS));
    assert_eq!(with(143, 36)[0], "0 0 0 3 143 3");
    // The token is at column 71; its second piece needs a third line.
    assert_eq!(with(143, 35), ["17 0 70 2 0 0"]);
    assert_eq!(with(143, 24), ["17 0 70 2 0 0"]);
    assert_eq!(with(143, 23), ["17 0 1 1 0 0"]);
    assert_eq!(with(142, 36), ["17 0 83 3 0 0"]);
    for text in 70..74 {
        assert_eq!(with(text, 36), ["17 0 70 2 0 0"], "text room {text}");
    }
    assert_eq!(with(74, 36), ["17 0 83 3 0 0"]);
    assert_eq!(with(69, 36), ["17 0 1 1 0 0"]);
}

#[test]
fn a_full_list_room_where_a_token_begins_a_record() {
    let bodies = [body(&[comment(71), beginning_with("A")])];
    let rooms = Rooms { list: 24, ..ROOMS };
    assert_eq!(shown(&answer(&bodies, rooms, STEPS)), ["17 0 81 2 0 0"]);
    // "steps charged first": with one step the step is what is missing.
    assert_eq!(shown(&answer(&bodies, rooms, 1)), ["18 0 81 1 0 0"]);
}

#[test]
fn columns_1_and_73_to_80_are_never_looked_at() {
    let sources = [
        ending_in("%DCL (A,AB) CHAR;%A='x';%AB='y';A"),
        beginning_with("+AB"),
    ];
    let expected = main_program(&sources);
    assert_eq!(expected.number, 0);
    for (first, last) in [
        (b'%', b"%DO;%'/*"),
        (b'\'', b"''''''''"),
        (b'/', b"*/%;ABC'"),
        (b'A', b"BBBBBBBB"),
        (b'\n', b"\0\xFF     \n"),
        (b' ', b"        "),
    ] {
        let mut bytes = Vec::new();
        for source in &sources {
            bytes.push(first);
            bytes.extend(source.as_bytes());
            bytes.extend(last);
        }
        assert_eq!(answer(&[bytes], ROOMS, STEPS), expected);
    }
}

#[test]
fn an_empty_body_is_no_record() {
    assert_eq!(shown(&answer(&[vec![]], ROOMS, STEPS)), ["0 0 0 0 0 0"]);
    let including = body(&[beginning_with("%INCLUDE A;")]);
    let lines = ["0 0 0 2 61 2", "B 0 12 1", "C 0 12 60"];
    assert_eq!(shown(&answer(&[including, vec![]], ROOMS, STEPS)), lines);
}

#[test]
fn a_member_has_edges_of_its_own() {
    let including = body(&[ending_in("A%INCLUDE A;B")]);
    let member = body(&[ending_in("C"), beginning_with("D")]);
    let lines = [
        "0 0 0 7 205 7",
        "B 0 1 1",
        "C 0 1 59",
        "B 1 1 1",
        "C 1 1 71",
        "C 1 81 71",
        "B 0 71 1",
        "C 0 71 1",
    ];
    assert_eq!(shown(&answer(&[including, member], ROOMS, STEPS)), lines);
}

#[test]
fn a_body_that_is_no_multiple_of_80() {
    let good = body(&[comment(71)]);
    let wrong = body(&["%X".repeat(35) + "%"]);
    let refused = |bodies: &[Vec<u8>]| shown(&answer(bodies, ROOMS, STEPS));
    for length in [1, 72, 79, 81, 159, 161] {
        let misfit = vec![b' '; length];
        assert_eq!(refused(slice::from_ref(&misfit)), ["20 0 0 0 0 0"]);
        // Included or not, and whatever is wrong in the main program.
        let bodies = [good.clone(), misfit.clone(), vec![]];
        assert_eq!(refused(&bodies), ["20 1 0 0 0 0"]);
        let bodies = [wrong.clone(), good.clone(), misfit.clone()];
        assert_eq!(refused(&bodies), ["20 2 0 0 0 0"]);
        // The first such member.
        let bodies = [good.clone(), misfit.clone(), misfit];
        assert_eq!(refused(&bodies), ["20 1 0 0 0 0"]);
    }
    assert_eq!(refused(&[wrong]), ["3 0 3 0 0 0"]);
}

#[test]
fn a_malformed_deck_comes_before_a_body_that_does_not_fit() {
    let misfit = deck(&[vec![b' '; 79]]);
    let number = |deck: &[u8]| shown(&expand(deck, Layout::Cards, ROOMS, STEPS))[0].clone();
    assert_eq!(number(&misfit), "20 0 0 0 0 0");
    assert_eq!(number(&misfit[..96]), "1 0 0 0 0 0");
    // 818 records are the most that a deck of one member holds.
    assert_eq!(
        number(&deck(&[vec![b' '; 80 * 818]])),
        "0 0 0 58078 58079 819"
    );
    assert_eq!(number(&deck(&[vec![b' '; 80 * 819]])), "1 0 0 0 0 0");
    assert_eq!(number(&deck(&[vec![b' '; 65_518]])), "20 0 0 0 0 0");
}

#[test]
fn the_example_expands_as_it_says() {
    let folder = Path::new(env!("CARGO_MANIFEST_DIR")).join("../examples/cards");
    let file = |name: &str| fs::read(folder.join(name)).expect("a file");
    let mut deck = deck(&[file("filter.crd"), file("bands.crd")]);
    // The member is called BANDS there.
    deck.splice(18..26, *b"BANDS   ");
    let mut text = expand(&deck, Layout::Cards, ROOMS, STEPS).text;
    text.push(b'\n');
    assert_eq!(text, file("expected.txt"));
}

#[test]
fn a_plain_deck_has_no_records() {
    let bytes = deck(&[body(&[ending_in("%"), beginning_with(";")])]);
    let plain = expand(&bytes, Layout::Plain, ROOMS, STEPS);
    // The `%` at offset 71 meets the sequence field: the 0 cannot follow.
    assert_eq!(shown(&plain), ["3 0 72 0 0 0"]);
}
