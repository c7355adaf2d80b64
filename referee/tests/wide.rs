//! Numbers in text are eight wide (request C-12) and long sides are compared (request C-13): expectations worked out
//! by hand from these requests, from 01 and from the readings.
//!
//! A number of d digits, negative or not, is 9 - d tokens when it is scanned: its blanks, its sign, its digits.

use referee::cards::Layout;
use referee::{expand, Answer, Rooms};

const ROOMS: Rooms = Rooms {
    text: 65_536,
    list: 49_152,
};
const STEPS: u32 = 1_000_000;

/// M1 of 01: 14 bytes of text, 15 steps, 5 lines.
const M1: &str = "%DECLARE N FIXED;%N=3+4; X=N;";

/// A deck of a main program alone.
fn deck(main: &str) -> Vec<u8> {
    let mut deck = b"\x01\x00MAIN    \x12\x00\x00\x00".to_vec();
    deck.extend((main.len() as u32).to_le_bytes());
    deck.extend(main.as_bytes());
    deck
}

fn answer(main: &str, rooms: Rooms, steps: u32) -> Answer {
    expand(&deck(main), Layout::Plain, rooms, steps)
}

/// The six numbers as the program prints them.
fn numbers(answer: &Answer) -> String {
    let printed = String::from_utf8_lossy(&answer.printed()).to_string();
    printed.lines().next().unwrap_or_default().to_string()
}

/// A finished main program has so many steps and this text.
fn finishes(main: &str, steps: u32, text: &str) {
    let answer = answer(main, ROOMS, STEPS);
    assert_eq!((answer.number, answer.steps), (0, steps), "{main}");
    assert_eq!(String::from_utf8_lossy(&answer.text), text, "{main}");
}

fn is_refused(main: &str, expected: &str) {
    assert_eq!(numbers(&answer(main, ROOMS, STEPS)), expected, "{main}");
}

/// What CHARACTER R holds after it is set: the text is three blanks and a copy of it.
fn value(expression: &str, expected: &str) {
    let main = format!("%DCL R CHAR;%R={expression};%ACT R NORESCAN;R");
    finishes(&main, 4, &format!("   {expected}"));
}

/// Whether an IF holds.
fn holds(condition: &str, expected: bool) {
    let main = format!("%IF {condition} %THEN %DO;Y%END;");
    let (steps, text) = if expected { (3, " Y ") } else { (1, " ") };
    finishes(&main, steps, text);
}

/// A constant of so many places.
fn places(count: usize) -> String {
    format!("'{}'", "v".repeat(count))
}

#[test]
fn m1_and_m10_as_the_request_says() {
    let answer = answer(M1, ROOMS, STEPS);
    let lines = "0 0 0 15 14 5\nB 0 17 1\nB 0 24 1\nC 0 24 3\nV 0 27 8\nC 0 28 1\n";
    let printed = format!("{lines}   X=       7;\n");
    assert_eq!(String::from_utf8_lossy(&answer.printed()), printed);
    value("2+3||4", "       5       4");
}

#[test]
fn every_number_has_eight_places() {
    value("0", "       0");
    value("9", "       9");
    value("10", "      10");
    value("-1", "      -1");
    value("-1234", "   -1234");
    value("99999", "   99999");
    value("0-99999", "  -99999");
    // A BIT is still its digits, and a CHARACTER is itself.
    value("7=7", "1");
    value("'7'", "7");
}

#[test]
fn arguments_and_results_are_converted_so() {
    let procedure = "%P:PROC(A)RETURNS(CHAR);DCL A CHAR;RETURN(A||A);%END;%DCL R CHAR;";
    let call = |rest: &str, steps: u32, text: &str| {
        finishes(&format!("{procedure}{rest}"), steps, text);
    };
    // P, DCL, ACT, R and the two statements of P are 6 steps, R in text is the 7th.
    let both = "       7       7";
    call("%ACT R NORESCAN;%R=P(7);R", 7, &format!("    {both}"));
    // In text an argument is what was written, a FIXED variable put for its name.
    call("%ACT P NORESCAN;P(7)", 3 + 2 + 2, "   77");
    let fixed = "%DCL F FIXED;%F=7;%ACT P NORESCAN;P(F)";
    call(fixed, 5 + 2 + 8 + 2, &format!("     {both}"));
    let returned = "%P:PROC RETURNS(FIXED);RETURN(' +5 ');%END;%ACT P;(P)";
    finishes(returned, 2 + 3 + 1 + 8, "  (       5)");
}

#[test]
fn a_minus_before_a_number_in_text_is_not_directly_before_its_digits() {
    let procedure = "%P:PROC(A)RETURNS(FIXED);DCL A FIXED;RETURN(A+1);%END;%ACT P;";
    // At 61: P and ACT, P, `-` and P, 1, two statements, eight tokens of the result.
    is_refused(&format!("{procedure}P(-P(1))"), "8 0 61 16 0 0");
}

#[test]
fn substr_takes_places_of_the_eight() {
    value("SUBSTR(-1234,4)", "-1234");
    value("SUBSTR(-1234,1,4)", "   -");
    value("SUBSTR(7,8)", "7");
    value("'<'||SUBSTR(7,9)||'>'", "<>");
    value("'<'||SUBSTR(7,1,0)||'>'", "<>");
    for arguments in ["7,9,1", "7,10", "7,0", "7,8,2", "7,1,9"] {
        is_refused(
            &format!("%DCL R CHAR;%R=SUBSTR({arguments});"),
            "19 0 12 2 0 0",
        );
    }
}

#[test]
fn joined_values_reach_512_at_504_and_a_number() {
    value(
        &format!("{}||7", places(504)),
        &format!("{}       7", "v".repeat(504)),
    );
    value(
        &format!("(-7)||{}", places(504)),
        &format!("      -7{}", "v".repeat(504)),
    );
    for joined in [format!("{}||7", places(505)), format!("7||{}", places(505))] {
        is_refused(&format!("%DCL R CHAR;%R={joined};"), "16 0 12 2 0 0");
    }
}

#[test]
fn comparisons_of_numbers_in_text() {
    holds("12='12 '", true);
    holds("12=(''||12)", true);
    holds("''||12='12'", false);
    // Numbers without a sign stand in their order as characters now.
    holds("''||9<(''||10)", true);
    holds("''||5='101'B", false);
    holds("SUBSTR(101,6)='101'B", true);
}

#[test]
fn blanks_are_no_bits_and_no_part_of_a_number_between_digits() {
    is_refused("%IF ''||1 %THEN %;", "8 0 0 1 0 0");
    is_refused("%IF ^(''||0) %THEN %;", "8 0 0 1 0 0");
    is_refused("%IF 2+3||4=54 %THEN %;", "8 0 0 1 0 0");
    holds("SUBSTR(1,8)", true);
    value("(''||-7)+1", "      -6");
    value("((-1)||'2')+0", "     -12");
}

#[test]
fn names_made_with_numbers_are_a_name_blanks_and_a_constant() {
    // A is replaced: N, A, its value x, and eight tokens behind it.
    let main = "%DCL (A,N) CHAR;%A='x';%N='A'||1;N";
    finishes(main, 3 + 1 + 1 + 1 + 8, "   x       1");
    // A1 is not met, unless the digit is cut out.
    let main = "%DCL (A1,N) CHAR;%A1='x';%N='A'||1;N";
    finishes(main, 3 + 1 + 1 + 8, "   A       1");
    let main = "%DCL (A1,N) CHAR;%A1='x';%N='A'||SUBSTR(1,8);N";
    finishes(main, 3 + 1 + 1 + 1, "   x");
    // `1A` is one token that begins with a digit.
    let main = "%DCL (A,N) CHAR;%A='x';%N=1||'A';N";
    finishes(main, 3 + 1 + 8, "          1A");
}

#[test]
fn the_blanks_charge_steps() {
    // 6 steps are charged when N is met, its eight tokens are 7 to 14, `;` is 15.
    assert_eq!(numbers(&answer(M1, ROOMS, 15)), "0 0 0 15 14 5");
    assert_eq!(numbers(&answer(M1, ROOMS, 14)), "18 0 28 14 0 0");
    assert_eq!(numbers(&answer(M1, ROOMS, 13)), "18 0 27 13 0 0");
    assert_eq!(numbers(&answer(M1, ROOMS, 6)), "18 0 27 6 0 0");
    let loops = "%DCL I FIXED;%DO I=9 TO 10;I%END;";
    // 2, then 1 + 8 and a test, 1 + 7 and a test.
    finishes(loops, 2 + 10 + 9, "         9       10 ");
}

#[test]
fn the_text_room_is_full_at_any_of_the_eight() {
    let number = |main: &str, text: u32| numbers(&answer(main, Rooms { text, ..ROOMS }, STEPS));
    // 5 bytes stand before the number; its blanks go out one by one.
    for blanks in 0..8 {
        let expected = format!("17 0 27 {} 0 0", 7 + blanks);
        assert_eq!(number(M1, 5 + blanks), expected);
    }
    assert_eq!(number(M1, 13), "17 0 28 15 0 0");
    assert_eq!(number(M1, 14), "0 0 0 15 14 5");
    // Copied it goes out whole: 3 bytes before it, and no steps.
    let copied = "%DCL F FIXED;%F=7;%ACT F NORESCAN;F";
    assert_eq!(number(copied, 3), "17 0 34 4 0 0");
    assert_eq!(number(copied, 10), "17 0 34 4 0 0");
    assert_eq!(number(copied, 11), "0 0 0 4 11 4");
    // Five digits are one token behind three blanks.
    let five = "%DCL F FIXED;%F=12345;F";
    assert_eq!(number(five, 5), "17 0 22 7 0 0");
    assert_eq!(number(five, 9), "17 0 22 7 0 0");
    assert_eq!(number(five, 10), "0 0 0 7 10 3");
}

#[test]
fn the_list_room_takes_one_line_for_a_number() {
    let number = |list: u32| numbers(&answer(M1, Rooms { list, ..ROOMS }, STEPS));
    assert_eq!(number(36), "17 0 27 6 0 0");
    assert_eq!(number(48), "17 0 28 15 0 0");
    assert_eq!(number(60), "0 0 0 15 14 5");
    let both = Rooms { text: 5, list: 36 };
    // "list before text": the line is due before the first blank is scanned.
    assert_eq!(numbers(&answer(M1, both, STEPS)), "17 0 27 6 0 0");
}

/// A call with so many values of 512 bytes and what makes them 129 arguments; W has a length of its own.
fn waiting(values: usize, long: usize, others: &str) -> String {
    let names: Vec<String> = (1..=129).map(|number| format!("A{number}")).collect();
    let names = names.join(",");
    let variables = format!("%DCL (R,V,W) CHAR;%V={};%W={};", places(512), places(long));
    let procedure = format!("%P:PROC({names})RETURNS(CHAR);DCL ({names}) CHAR;RETURN(A129);%END;");
    let call = format!("%R=P({}{others});", "V,".repeat(values));
    format!("{variables}{procedure}{call}")
}

/// Values, how long W is, the others, and the number of the answer: 0, or 16 if all together pass 65,536 bytes (reading 28).
type Waiting<'a> = (usize, usize, &'a str, u32);

fn are_answered(rows: &[Waiting]) {
    for &(values, long, others, number) in rows {
        let found = answer(&waiting(values, long, others), ROOMS, STEPS).number;
        assert_eq!(found, number, "{values} values, W {long}, {others}");
    }
}

#[test]
fn a_number_takes_eight_bytes_of_the_unfinished_values() {
    // 127 values leave 512 bytes.
    are_answered(&[
        (127, 504, "W,7", 0),
        (127, 505, "W,7", 16),
        (127, 504, "7,W", 0),
        (127, 505, "7,W", 16),
    ]);
    // While it waits as FIXED it takes nothing.
    are_answered(&[
        (127, 512, "'',7*(W='')", 0),
        (127, 512, "'',7||(W='')", 0),
        (127, 512, "'',''||7||(W='')", 16),
        (127, 504, "'',''||7||(W='')", 0),
    ]);
}

#[test]
fn an_argument_in_text_passes_512_at_the_last_digit() {
    let call = |before: usize| {
        let procedure = "%P:PROC(A)RETURNS(CHAR);DCL A CHAR;RETURN('p');%END;%ACT P NORESCAN;";
        let number = "%DCL F FIXED;%F=7;";
        format!("{procedure}{number}P({}F)", "-".repeat(before))
    };
    // 4 sentences, P, 504 tokens, F and its eight, two statements.
    finishes(&call(504), 4 + 1 + 504 + 1 + 8 + 2, "    p");
    // The eighth token is charged and does not fit.
    is_refused(&call(505), "16 0 86 519 0 0");
}

#[test]
fn long_sides_are_compared_place_by_place() {
    let side = |place: usize, byte: &str| {
        let behind = "m".repeat(511 - place);
        format!("'{}{byte}{behind}'", "m".repeat(place))
    };
    let same = side(0, "m");
    for operator in ["=", ">=", "<=", "^>", "^<"] {
        holds(&format!("{same}{operator}{same}"), true);
    }
    for place in [0, 255, 511] {
        for operator in [">", ">=", "^<", "^="] {
            holds(&format!("{}{operator}{same}", side(place, "n")), true);
            holds(
                &format!("{}{operator}{same}", side(place, "l")),
                operator == "^=",
            );
        }
        for operator in ["<", "<=", "^>", "="] {
            holds(&format!("{}{operator}{same}", side(place, "n")), false);
        }
    }
}

#[test]
fn the_shorter_side_is_padded() {
    let (short, long) = ("m".repeat(511), "m".repeat(512));
    holds(&format!("'{short}'='{short} '"), true);
    holds(&format!("'{short}'<'{short}!'"), true);
    holds(&format!("'{short}'>'{short}\n'"), true);
    holds(&format!("'{long}'>''"), true);
    holds(&format!("''='{}'", " ".repeat(512)), true);
    let zeros = "0".repeat(511);
    holds(&format!("'{zeros}'B='{zeros}0'B"), true);
    holds(&format!("'{zeros}'B<'{zeros}1'B"), true);
    // Against CHARACTER the digits are padded with blanks.
    holds(&format!("'{zeros}'B<'{zeros}0'"), true);
}

#[test]
fn two_long_sides_take_1024_bytes_and_their_outcome_one() {
    // 126 values leave 1,024 bytes.
    are_answered(&[
        (126, 512, "V=W,'',''", 0),
        (126, 512, "'x',V=W,''", 16),
        (126, 511, "V=W,V,W", 0),
        (126, 512, "V=W,V,W", 16),
    ]);
    // What a side is padded with takes nothing.
    are_answered(&[
        (127, 512, "''=W,''", 0),
        (127, 511, "'v'=W,''", 0),
        (127, 512, "'v'=W,''", 16),
    ]);
}
