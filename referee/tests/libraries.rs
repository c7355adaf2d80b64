//! Libraries in INCLUDE (request C-14): expectations worked out by hand from the request, from 01 and from the readings.
//!
//! `%INCLUDE L(A);` has 14 bytes: its library is at 9, its `(` at 10, its member at 11.

use referee::cards::Layout;
use referee::{expand, Answer, Rooms};

const ROOMS: Rooms = Rooms {
    text: 65_536,
    list: 49_152,
};
const STEPS: u32 = 1_000_000;

/// A line of contents: library, name and body. No library: the first layout.
type Line<'a> = (&'a str, &'a str, &'a str);

fn number(value: usize) -> [u8; 4] {
    (value as u32).to_le_bytes()
}

/// A deck with this first number, of lines that are as wide as their names make them.
fn deck_with(first: u16, lines: &[Line]) -> Vec<u8> {
    let width = |line: &Line| if line.0.is_empty() { 16 } else { 24 };
    let mut offset = 2 + lines.iter().map(width).sum::<usize>();
    let mut deck = first.to_le_bytes().to_vec();
    for (library, name, body) in lines {
        if !library.is_empty() {
            deck.extend(format!("{library:8}").bytes());
        }
        deck.extend(format!("{name:8}").bytes());
        deck.extend(number(offset));
        deck.extend(number(body.len()));
        offset += body.len();
    }
    deck.extend(lines.iter().flat_map(|line| line.2.bytes()));
    deck
}

fn deck(lines: &[Line]) -> Vec<u8> {
    let more = if lines[0].0.is_empty() { 0 } else { 256 };
    deck_with(more + lines.len() as u16, lines)
}

fn answer(lines: &[Line]) -> Answer {
    expand(&deck(lines), Layout::Plain, ROOMS, STEPS)
}

fn printed(answer: &Answer) -> String {
    String::from_utf8_lossy(&answer.printed()).to_string()
}

/// What is printed of a finished deck: numbers and lines, then the text.
fn finishes(lines: &[Line], numbers_and_lines: &[&str], text: &str) {
    let expected = format!("{}\n{text}\n", numbers_and_lines.join("\n"));
    assert_eq!(printed(&answer(lines)), expected, "{lines:?}");
}

fn is_refused(lines: &[Line], numbers: &str) {
    assert_eq!(
        printed(&answer(lines)),
        format!("{numbers}\n\n"),
        "{lines:?}"
    );
}

/// The main program alone, in both layouts, is refused so.
fn is_refused_alone(main: &str, numbers: &str) {
    is_refused(&[("", "MAIN", main)], numbers);
    is_refused(&[("L", "MAIN", main), ("L", "A", "B")], numbers);
}

/// Whatever stands in it, the deck is malformed.
fn is_malformed(deck: &[u8]) {
    for layout in [Layout::Plain, Layout::Cards] {
        let answer = expand(deck, layout, ROOMS, STEPS);
        assert_eq!(printed(&answer), "1 0 0 0 0 0\n\n", "{deck:?}");
    }
}

/// A name of so many bytes.
fn long(bytes: usize) -> String {
    "N".repeat(bytes)
}

#[test]
fn a_pair_is_included() {
    // The INCLUDE, B and X; a blank before each text.
    let lines = ["0 0 0 3 4 4", "B 1 0 1", "C 1 0 1", "B 0 14 1", "C 0 14 1"];
    let main = ("L", "MAIN", "%INCLUDE L(A);X");
    finishes(&[main, ("L", "A", "B")], &lines, " B X");
}

#[test]
fn a_member_in_each_of_two_libraries() {
    let main = "%INCLUDE K(LIMITS);%INCLUDE L(LIMITS);%INCLUDE LIMITS;";
    // Statements of 19, 19 and 16 bytes with empty texts behind them. The bare name is the first line.
    let lines = [
        "0 0 0 6 9 9",
        "B 2 0 1",
        "C 2 0 1",
        "B 0 19 1",
        "B 1 0 1",
        "C 1 0 1",
        "B 0 38 1",
        "B 1 0 1",
        "C 1 0 1",
        "B 0 54 1",
    ];
    let deck = [
        ("L", "MAIN", main),
        ("L", "LIMITS", "1"),
        ("K", "LIMITS", "2"),
    ];
    finishes(&deck, &lines, " 2  1  1 ");
}

#[test]
fn a_bare_name_ignores_libraries_but_no_library_is_a_member() {
    let a = ("K", "A", "B");
    let lines = ["0 0 0 2 3 3", "B 1 0 1", "C 1 0 1", "B 0 11 1"];
    finishes(&[("L", "MAIN", "%INCLUDE A;"), a], &lines, " B ");
    for wrong in [
        "K", "L", "K(K)", "A(K)", "L(A)", "A(A)", "K(MAIN)", "Z(A)", "K(Z)",
    ] {
        let main = format!("%INCLUDE {wrong};");
        is_refused(&[("L", "MAIN", &main), a], "14 0 0 1 0 0");
    }
}

#[test]
fn an_item_that_meets_no_line_is_14_when_its_turn_comes() {
    // X, the INCLUDE and B are three steps; the `%` is at 1.
    let main = "X%INCLUDE A,Z(A),A;";
    is_refused(&[("L", "MAIN", main), ("L", "A", "B")], "14 0 1 3 0 0");
    is_refused(&[("", "MAIN", main), ("", "A", "B")], "14 0 1 3 0 0");
    // What is never reached is not looked up.
    let lines = ["0 0 0 1 1 1", "B 0 32 1"];
    finishes(
        &[("L", "MAIN", "%IF 0 %THEN %INCLUDE Z(A),A(B);")],
        &["0 0 0 1 1 1", "B 0 31 1"],
        " ",
    );
    finishes(
        &[("", "MAIN", "%IF 0 %THEN %INCLUDE Z(A), A(B);")],
        &lines,
        " ",
    );
}

#[test]
fn in_the_first_layout_no_line_meets_a_pair() {
    let a = ("", "A", "B");
    for main in ["%INCLUDE L(A);", "%INCLUDE MAIN(A);", "%INCLUDE A(A);"] {
        is_refused(&[("", "MAIN", main), a], "14 0 0 1 0 0");
    }
    // The INCLUDE and B.
    is_refused(&[("", "MAIN", "%INCLUDE A,MAIN(A);"), a], "14 0 0 2 0 0");
}

#[test]
fn a_wrong_form_is_3_at_the_first_token_that_cannot_follow() {
    let forms = [
        ("(A)", 9),
        (",L(A)", 9),
        ("()", 9),
        ("L A", 11),
        ("L)A(", 10),
        ("L.A", 10),
        ("L(", 11),
        ("L()", 11),
        ("L((A))", 11),
        ("L(1)", 11),
        ("L('A')", 11),
        ("L(%A)", 11),
        ("L(`)", 11),
        ("L(,A)", 11),
        ("L,(A)", 11),
        ("L(A", 12),
        ("L(A,B)", 12),
        ("L(M(A))", 12),
        ("L(A=1)", 12),
        ("L(A:B)", 12),
        ("L(A B)", 13),
        ("L(A)(B)", 13),
        ("L(A))", 13),
        ("L(A)B", 13),
        ("L(A):", 13),
        ("L(A)=1", 13),
        ("L(A) B", 14),
        ("L(A),", 14),
        ("L(A),(A)", 14),
        ("A,L(A,B)", 14),
    ];
    for (form, place) in forms {
        is_refused_alone(&format!("%INCLUDE {form};"), &format!("3 0 {place} 0 0 0"));
    }
}

#[test]
fn what_is_open_at_the_end() {
    for (form, place) in [("", 9), ("L", 10), ("L(", 11), ("L(A", 12), ("L(A)", 13)] {
        let main = format!("%INCLUDE {form}");
        is_refused_alone(&main, &format!("3 0 {place} 0 0 0"));
    }
    is_refused_alone("%INCLUDE L(/*A);", "3 0 11 0 0 0");
    is_refused_alone("%INCLUDE L(A/*);", "3 0 12 0 0 0");
    is_refused_alone("%INCLUDE L(A)'", "3 0 13 0 0 0");
}

#[test]
fn spaces_may_stand_around_both_parentheses() {
    let main = "%INCLUDE L /*(*/\n(\n A /*)*/ ) /*,*/ , A;";
    // One blank for the whole statement of 40 bytes.
    let lines = [
        "0 0 0 3 5 5",
        "B 1 0 1",
        "C 1 0 1",
        "B 1 0 1",
        "C 1 0 1",
        "B 0 40 1",
    ];
    finishes(&[("L", "MAIN", main), ("L", "A", "B")], &lines, " B B ");
}

#[test]
fn long_names_in_both_places() {
    let include = |item: &str| format!("%INCLUDE {item};");
    let line = ("NNNNNNNN", "NNNNNNNN", "B");
    for (library, member) in [(9, 8), (8, 9), (31, 8), (8, 31), (31, 31)] {
        let item = format!("{}({})", long(library), long(member));
        is_refused(&[("L", "MAIN", &include(&item)), line], "14 0 0 1 0 0");
    }
    let item = format!("{}({})", long(8), long(8));
    let lines = ["0 0 0 2 3 3", "B 1 0 1", "C 1 0 1", "B 0 28 1"];
    finishes(&[("L", "MAIN", &include(&item)), line], &lines, " B ");
    is_refused_alone(&include(&format!("{}(A)", long(32))), "4 0 9 0 0 0");
    is_refused_alone(&include(&format!("L({})", long(32))), "4 0 11 0 0 0");
    is_refused_alone(&include(&format!("L({}", long(32))), "4 0 11 0 0 0");
    is_refused_alone(&include(&format!("L(A {})", long(32))), "3 0 13 0 0 0");
    is_refused_alone(&include(&format!("L(A){}", long(32))), "3 0 13 0 0 0");
}

#[test]
fn the_main_program_by_both_names() {
    // One step for each of the levels 0 to 8.
    let other = ("K", "LIMITS", "2");
    for item in ["LIMITS", "L(LIMITS)"] {
        let main = format!("%INCLUDE {item};");
        is_refused(&[("L", "LIMITS", &main), other], "15 0 0 9 0 0");
    }
    let lines = ["0 0 0 2 3 3", "B 1 0 1", "C 1 0 1", "B 0 19 1"];
    finishes(
        &[("L", "LIMITS", "%INCLUDE K(LIMITS);"), other],
        &lines,
        " 2 ",
    );
}

#[test]
fn a_line_is_one_member_whatever_it_is_called() {
    let declares = "%DCL X FIXED;";
    for items in ["D,Z(D)", "Z(D),D", "Z(D),Z(D)"] {
        let main = format!("%INCLUDE {items};");
        is_refused(&[("L", "MAIN", &main), ("Z", "D", declares)], "5 1 5 2 0 0");
    }
    // Two lines are two members, and each declares X.
    let (first, second) = (("L", "D", declares), ("K", "D", declares));
    let main = ("L", "MAIN", "%INCLUDE L(D),K(D);");
    is_refused(&[main, first, second], "5 2 5 2 0 0");
    // A label of the one that no longer runs: INCLUDE, its null statement, the other's GOTO at 0.
    let members = [("L", "D", "%E:;"), ("K", "D", "%GOTO E;")];
    is_refused(&[main, members[0], members[1]], "13 2 0 3 0 0");
}

#[test]
fn goto_out_of_a_member_of_a_library() {
    let main = ("L", "MAIN", "%INCLUDE K(A);X%L:;Y");
    // INCLUDE, B, GOTO, the label's null statement and Y; neither INCLUDE nor GOTO has a blank.
    let lines = ["0 0 0 5 4 4", "B 1 0 1", "C 1 0 1", "B 0 19 1", "C 0 19 1"];
    finishes(&[main, ("K", "A", "B%GOTO L;C")], &lines, " B Y");
}

#[test]
fn include_is_no_reserved_word() {
    let main = "%DCL INCLUDE FIXED;%INCLUDE=1;%INCLUDE L(A);";
    let lines = [
        "0 0 0 4 5 5",
        "B 0 19 1",
        "B 0 30 1",
        "B 1 0 1",
        "C 1 0 1",
        "B 0 44 1",
    ];
    finishes(&[("L", "MAIN", main), ("L", "A", "B")], &lines, "   B ");
}

#[test]
fn pairs_in_alternatives() {
    let members = [("L", "A", "B"), ("K", "A", "C")];
    let main = |truth: u8| format!("%IF {truth} %THEN %INCLUDE L(A); %ELSE %INCLUDE K(A);Z");
    // The IF, the alternative, the text of the member and Z.
    let then = ["0 0 0 4 4 4", "B 1 0 1", "C 1 0 1", "B 0 47 1", "C 0 47 1"];
    finishes(
        &[("L", "MAIN", &main(1)), members[0], members[1]],
        &then,
        " B Z",
    );
    let otherwise = ["0 0 0 4 4 4", "B 2 0 1", "C 2 0 1", "B 0 47 1", "C 0 47 1"];
    finishes(
        &[("L", "MAIN", &main(0)), members[0], members[1]],
        &otherwise,
        " C Z",
    );
}

#[test]
fn levels_go_by_inclusions() {
    let libraries: Vec<String> = (0..10).map(|number| format!("L{number}")).collect();
    let bodies: Vec<String> = (1..10)
        .map(|next| format!("%INCLUDE L{next}(M);"))
        .collect();
    let deck = |count: usize| -> Vec<Line> {
        let body = |number: usize| bodies.get(number).filter(|_| number + 1 < count);
        (0..count)
            .map(|number| (&*libraries[number], "M", body(number).map_or("", |b| b)))
            .collect()
    };
    // Eight levels: the last member is empty and each INCLUDE has its blank.
    let nine = answer(&deck(9));
    assert_eq!((nine.number, nine.steps, nine.text.len()), (0, 8, 8));
    is_refused(&deck(10), "15 8 0 9 0 0");
}

#[test]
fn first_numbers() {
    let alone = [("L", "MAIN", "")];
    let empty = expand(&deck_with(257, &alone), Layout::Plain, ROOMS, STEPS);
    assert_eq!(printed(&empty), "0 0 0 0 0 0\n\n");
    for first in [0, 1, 2, 33, 255, 256, 258, 289, 512, 513, 65_535] {
        is_malformed(&deck_with(first, &alone));
    }
    let short = [("", "MAIN", "")];
    for first in [0, 2, 33, 256, 257, 258, 289] {
        is_malformed(&deck_with(first, &short));
    }
    let libraries: Vec<String> = (1..=33).map(|number| format!("L{number}")).collect();
    let lines: Vec<Line> = libraries
        .iter()
        .map(|library| (&**library, "M", ""))
        .collect();
    let most = expand(&deck(&lines[..32]), Layout::Plain, ROOMS, STEPS);
    assert_eq!(printed(&most), "0 0 0 0 0 0\n\n");
    is_malformed(&deck(&lines));
}

#[test]
fn names_of_contents() {
    let main = ("L", "MAIN", "");
    for library in [
        " ", " L", "L K", "1L", "_L", "`", "L{", "L-", "L\0", "\0", "\u{7f}",
    ] {
        is_malformed(&deck(&[main, (library, "A", "")]));
        is_malformed(&deck(&[(library, "MAIN", ""), main]));
    }
    is_malformed(&deck(&[main, ("L", " ", "")]));
    is_malformed(&deck(&[
        main,
        ("L", "A", ""),
        ("K", "A", ""),
        ("L", "A", ""),
    ]));
    // Distinct as pairs, not by either half, nor joined.
    let lines = [
        main,
        ("L", "A", ""),
        ("K", "A", ""),
        ("K", "L", ""),
        ("A", "L", ""),
    ];
    assert_eq!(answer(&lines), Answer::default());
    assert_eq!(
        answer(&[main, ("A", "BC", ""), ("AB", "C", "")]),
        Answer::default()
    );
}

#[test]
fn bodies_begin_behind_lines_of_24_bytes() {
    let sound = deck(&[("L", "MAIN", "X"), ("K", "A", "Y")]);
    assert_eq!(&sound[18..22], &number(50));
    for cut in 0..sound.len() {
        is_malformed(&sound[..cut]);
    }
    for (place, wrong) in [
        (18, 34),
        (18, 49),
        (18, 51),
        (42, 35),
        (42, 50),
        (46, 0),
        (46, 2),
    ] {
        let mut deck = sound.clone();
        deck[place] = wrong;
        is_malformed(&deck);
    }
}

/// A record of source with blanks behind it.
fn card(source: &str) -> String {
    format!("1{source:71}00000010")
}

#[test]
fn cards_with_libraries() {
    let (main, member) = (card("%INCLUDE K(A);"), card("B"));
    let bytes = deck(&[("L", "MAIN", &main), ("K", "A", &member)]);
    let answer = expand(&bytes, Layout::Cards, ROOMS, STEPS);
    // The INCLUDE, B and 70 blanks, then 57 blanks; the text behind the INCLUDE begins at 15 of the record.
    let lines = "0 0 0 129 130 4\nB 1 1 1\nC 1 1 71\nB 0 15 1\nC 0 15 57\n";
    assert_eq!(printed(&answer), format!("{lines} B{:70} {:57}\n", "", ""));
    // The `%` is at 1, column 2.
    let wrong = card("%INCLUDE L(A);");
    let bytes = deck(&[("L", "MAIN", &wrong), ("K", "A", &member)]);
    let answer = expand(&bytes, Layout::Cards, ROOMS, STEPS);
    assert_eq!(printed(&answer), "14 0 1 1 0 0\n\n");
}

#[test]
fn twenty_goes_by_bodies_and_not_by_contents() {
    let record = card("");
    let longer = card("") + "X";
    let twenty = |lines: &[Line], expected: &str| {
        let answer = expand(&deck(lines), Layout::Cards, ROOMS, STEPS);
        assert_eq!(printed(&answer), format!("{expected}\n\n"));
    };
    let main = ("L", "MAIN", &*record);
    twenty(
        &[main, ("K", "A", &longer), ("L", "A", "X")],
        "20 1 0 0 0 0",
    );
    twenty(&[main, ("K", "A", ""), ("L", "A", "X")], "20 2 0 0 0 0");
    twenty(&[("L", "MAIN", "X"), main, ("K", "A", "")], "1 0 0 0 0 0");
    // One line of 24 bytes and a body of 54: 80 with the first number, and no record.
    let body = "X".repeat(54);
    twenty(&[("L", "MAIN", &body)], "20 0 0 0 0 0");
}
