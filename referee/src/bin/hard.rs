//! The hardest decks: each limit of 01 met and passed, alone and all at once, and the longest of everything.
//!
//! `hard --names` prints for each deck its name and the number of its answer; `hard NAME` writes that deck as a
//! record with the rooms and steps of the program.

#[path = "hard/case.rs"]
mod case;
#[path = "hard/stack.rs"]
mod stack;

use std::env;
use std::io::{self, Write};
use std::process::ExitCode;

use referee::cards::Layout;
use referee::generate::{cards_of, deck_of, library_deck_of, AMPLE, MOST_STEPS};
use referee::record::Record;

/// The main program, then the members M1, M2 and so on.
type Bodies = Vec<String>;

/// Name, number of the answer, and what writes the deck.
type Deck = (&'static str, u32, fn() -> Bodies);

const DECKS: &[Deck] = &[
    ("operators-60000", 0, operators),
    ("operators-infix", 0, operators_infix),
    ("operators-of-each-kind", 0, operators_of_each_kind),
    ("operators-in-a-loop", 0, operators_in_a_loop),
    ("prefix-minus-60000", 0, prefix_minus),
    ("prefix-mixed-60000", 0, prefix_mixed),
    ("joins", 0, joins),
    ("comparisons", 0, comparisons),
    ("comparisons-of-512", 0, comparisons_of_512),
    ("parentheses-16", 0, || parentheses(16)),
    ("parentheses-17", 4, || parentheses(17)),
    ("parentheses-again-and-again", 0, parentheses_repeated),
    ("groups-16", 0, || groups(4)),
    ("groups-17", 4, || groups(5)),
    ("groups-iterated-16", 0, groups_iterated),
    ("calls-16", 0, || calls(16, "%R=P1;R")),
    ("calls-17", 15, || calls(17, "%R=P1;R")),
    ("calls-from-text-16", 0, || calls(16, "P1")),
    ("calls-from-text-17", 15, || calls(17, "P1")),
    ("replacement-32", 0, || replacement(32)),
    ("replacement-33", 15, || replacement(33)),
    ("replacement-in-arguments-32", 0, || arguments_nested(32)),
    ("replacement-in-arguments-33", 15, || arguments_nested(33)),
    ("replacement-tree", 18, replacement_tree),
    ("include-8", 0, || include(8)),
    ("include-9", 15, || include(9)),
    ("include-32-members", 0, include_many),
    ("include-in-a-loop", 4, include_in_a_loop),
    ("all-at-once", 0, || all_at_once("('1')")),
    ("all-at-once-and-too-deep", 12, || all_at_once("P1(A)")),
    ("sentences-1024", 0, || sentences(1_024)),
    ("sentences-1025", 4, || sentences(1_025)),
    ("sentences-2048", 0, || sentences_in_two("M1")),
    ("sentences-2049", 4, || sentences_in_two("M1,M2")),
    ("names-256", 0, || names(256)),
    ("names-257", 4, || names(257)),
    ("names-far", 0, names_far),
    ("value-512", 0, || value("")),
    ("value-513", 16, || value("%R=R||'.';")),
    ("goto-1000000", 18, goto_loop),
    ("goto-far", 18, goto_far),
    ("goto-out-of-16-groups", 18, goto_out),
    ("assignments-1000000", 0, assignments),
    ("arguments-255", 0, || arguments(255)),
    ("arguments-256", 11, || arguments(256)),
    ("arguments-30000", 11, arguments_of_substr),
    ("arguments-from-text-255", 0, || arguments_in_text(255)),
    ("arguments-from-text-256", 11, || arguments_in_text(256)),
    ("parameters-5000", 6, || parameters(5_000, "")),
    ("parameters-5000-one-twice", 5, || parameters(5_000, ",AAA")),
    ("labels-30000", 5, labels_same),
    ("labels-distinct", 4, labels_distinct),
    ("labels-end", 3, labels_end),
    ("comment-60000", 0, || vec![format!("A{}A", comment())]),
    ("comment-in-statement", 0, comment_in_statement),
    ("comment-in-a-loop", 0, comment_in_a_loop),
    ("comment-open", 3, || {
        vec![format!("A/*{}", "*".repeat(60_000))]
    }),
    ("string-60000", 0, || {
        vec![format!("'{}'", "A".repeat(60_000))]
    }),
    ("string-in-statement", 16, || constant("'", "A", "'")),
    ("string-of-quotes", 16, || constant("'", "''", "'")),
    ("string-of-bits", 16, || constant("'", "01", "'B")),
    ("string-open", 3, || vec!["'".repeat(60_001)]),
    ("strings-empty", 0, || vec!["''".repeat(30_000)]),
    ("name-60000", 0, || vec!["A".repeat(60_000)]),
    ("name-in-statement", 4, || constant("", "A", "")),
    ("digits-60000", 0, || vec!["1".repeat(60_000)]),
    ("digits-in-statement", 9, || constant("", "12", "")),
    ("digits-zeros", 0, || constant("", "0", "")),
    ("blanks-in-statement", 0, || constant("", " ", "1")),
    ("percents", 3, || vec!["%".repeat(60_000)]),
    ("else-far", 0, || else_far("%ELSE %;")),
    ("else-missing", 0, || else_far("A")),
    ("waiting-65536", 0, || waiting("")),
    ("waiting-65537", 16, || waiting("'x'=")),
    ("waiting-in-procedures-65536", 0, || {
        waiting_in_procedures("''")
    }),
    ("waiting-in-procedures-65537", 16, || {
        waiting_in_procedures("'x'")
    }),
    ("waiting-in-substr-65536", 0, || waiting_in_substr(504)),
    ("waiting-in-substr-65537", 16, || waiting_in_substr(505)),
    ("waiting-given-back", 0, waiting_given_back),
    ("waiting-given-back-in-text", 0, waiting_given_back_in_text),
    ("waiting-in-text", 0, || waiting_in_text(7)),
    ("waiting-in-text-past", 16, || waiting_in_text(9)),
    ("text-room-full", 0, || text_room(383)),
    ("text-room-past", 17, || text_room(384)),
    ("list-room-full", 0, || list_room("")),
    ("list-room-past", 17, || list_room("V")),
    ("text-of-names", 0, text_of_names),
    ("text-of-numbers", 0, || text_of_numbers(3)),
    ("text-of-numbers-past", 17, || text_of_numbers(4)),
    ("deck-65536", 0, || vec![".".repeat(65_536 - 18)]),
    ("deck-65537", 1, || vec![".".repeat(65_537 - 18)]),
    ("deck-131072", 1, || vec![".".repeat(131_072 - 18)]),
];

/// The most source that a deck of one member holds: 818 records.
const MOST_SOURCE: usize = 818 * 71;

/// Decks of cards; the bodies are their joined columns, filled up with blanks.
const CARD_DECKS: &[Deck] = &[
    ("cards-comment", 0, || vec![comment_of(MOST_SOURCE)]),
    ("cards-comment-past", 1, || {
        vec![comment_of(MOST_SOURCE + 1)]
    }),
    ("cards-name", 0, || vec!["A".repeat(MOST_SOURCE)]),
    ("cards-blanks", 0, || vec![" ".repeat(MOST_SOURCE)]),
    ("cards-comment-in-statement", 0, || {
        expression(&format!("{}1", comment_of(57_000)))
    }),
    ("cards-string-open", 3, || vec!["'".repeat(MOST_SOURCE - 1)]),
    ("cards-else-missing", 0, || {
        vec![format!("%IF 1 %THEN %;{}A", " /*%*/".repeat(9_000))]
    }),
    ("cards-text-of-names", 0, || {
        vec![format!("%DCL V CHAR;%V='.';{}", "V+".repeat(2_000))]
    }),
    ("cards-list-room-full", 0, || list_room("")),
    ("cards-list-room-past", 17, || list_room(&comment_of(100))),
    ("cards-list-room-past-by-a-name", 17, || list_room("V")),
    ("cards-include-32-members", 0, include_many),
    ("cards-sentences-1024", 0, || sentences(1_024)),
    ("cards-sentences-1025", 4, || sentences(1_025)),
    ("cards-names-256", 0, || names(256)),
    ("cards-names-257", 4, || names(257)),
    ("cards-goto-1000000", 18, goto_loop),
    ("cards-goto-far", 18, goto_far),
    ("cards-assignments-1000000", 0, assignments),
    ("cards-all-at-once", 0, || all_at_once("('1')")),
    ("cards-waiting-65537", 16, || waiting("'x'=")),
];

/// A line of contents with a library, and its body.
type Shelved = (String, String, String);

/// Name, number of the answer, layout of the bodies, and what writes the deck.
type LibraryDeck = (&'static str, u32, Layout, fn() -> Vec<Shelved>);

/// Decks with libraries (request C-14).
const LIBRARY_DECKS: &[LibraryDeck] = &[
    ("libraries-32", 0, Layout::Plain, || one_name(32)),
    ("libraries-33", 1, Layout::Plain, || one_name(33)),
    ("libraries-256", 1, Layout::Plain, Vec::new),
    ("libraries-of-32-names", 0, Layout::Plain, || every_pair(32)),
    ("libraries-bare-names", 0, Layout::Plain, bare_names),
    (
        "libraries-again-and-again",
        0,
        Layout::Plain,
        again_and_again,
    ),
    (
        "libraries-unknown-at-last",
        14,
        Layout::Plain,
        unknown_at_last,
    ),
    ("libraries-levels-8", 0, Layout::Plain, || levels(8)),
    ("libraries-levels-9", 15, Layout::Plain, || levels(9)),
    ("libraries-main-again", 15, Layout::Plain, main_again),
    ("libraries-sentences-2048", 0, Layout::Plain, || {
        many_sentences("")
    }),
    ("libraries-sentences-2049", 4, Layout::Plain, || {
        many_sentences("%;")
    }),
    ("libraries-names-256", 0, Layout::Plain, || many_names(256)),
    ("libraries-names-257", 4, Layout::Plain, || many_names(257)),
    ("libraries-spaces", 0, Layout::Plain, far_parentheses),
    ("libraries-parentheses", 3, Layout::Plain, || {
        shelf(&[&format!("%INCLUDE L{}", "(".repeat(60_000))])
    }),
    ("libraries-deck-65536", 0, Layout::Plain, || {
        filled_up(65_536)
    }),
    ("libraries-deck-65537", 1, Layout::Plain, || {
        filled_up(65_537)
    }),
    ("cards-libraries-32", 0, Layout::Cards, || one_name(32)),
    ("cards-libraries-33", 1, Layout::Cards, || one_name(33)),
    (
        "cards-libraries-again-and-again",
        0,
        Layout::Cards,
        again_and_again,
    ),
    ("cards-libraries-spaces", 0, Layout::Cards, far_parentheses),
    ("cards-libraries-full", 0, Layout::Cards, || records_of(809)),
    ("cards-libraries-past", 1, Layout::Cards, || records_of(810)),
];

fn main() -> ExitCode {
    let arguments: Vec<String> = env::args().skip(1).collect();
    let outcome = match arguments.as_slice() {
        [flag] if flag == "--names" => print_names(),
        [name] => write_deck(name),
        _ => Err(io::Error::other("usage: hard --names, hard NAME")),
    };
    match outcome {
        Ok(()) => ExitCode::SUCCESS,
        Err(error) => {
            eprintln!("hard: {error}");
            ExitCode::FAILURE
        }
    }
}

fn print_names() -> io::Result<()> {
    let mut output = io::stdout().lock();
    let names = plain_decks().chain(card_decks());
    let more = library_decks().map(|(name, number, ..)| (name, number));
    for (name, number) in names.map(|(name, number, _)| (name, number)).chain(more) {
        writeln!(output, "{name} {number}")?;
    }
    Ok(())
}

fn plain_decks() -> impl Iterator<Item = &'static Deck> {
    DECKS.iter().chain(stack::DECKS).chain(case::DECKS)
}

fn card_decks() -> impl Iterator<Item = &'static Deck> {
    let own = CARD_DECKS.iter();
    own.chain(stack::CARD_DECKS).chain(case::CARD_DECKS)
}

fn library_decks() -> impl Iterator<Item = &'static LibraryDeck> {
    LIBRARY_DECKS.iter().chain(case::LIBRARY_DECKS)
}

/// The deck of this name, and how its bodies are laid out.
fn deck_named(wanted: &str) -> Option<(Layout, Vec<u8>)> {
    let is_wanted = |deck: &&Deck| deck.0 == wanted;
    if let Some((_, _, bodies)) = plain_decks().find(is_wanted) {
        return Some((Layout::Plain, deck_of(&bodies())));
    }
    if let Some((_, _, bodies)) = card_decks().find(is_wanted) {
        return Some((Layout::Cards, cards_of(&bodies())));
    }
    let (_, _, layout, lines) = library_decks().find(|(name, ..)| *name == wanted)?;
    Some((*layout, library_deck_of(*layout, &lines())))
}

fn write_deck(wanted: &str) -> io::Result<()> {
    let unknown = || io::Error::other(format!("no deck is named {wanted}"));
    let (layout, deck) = deck_named(wanted).ok_or_else(unknown)?;
    let record = Record {
        layout,
        rooms: AMPLE,
        steps: MOST_STEPS,
        deck,
    };
    record.write(&mut io::stdout().lock())
}

/// A comment of so many bytes.
fn comment_of(length: usize) -> String {
    format!("/*{}*/", "-".repeat(length - 4))
}

/// Names with a number each, from 1 on, with commas between.
fn numbered(letter: &str, count: usize) -> String {
    let names: Vec<String> = (1..=count)
        .map(|number| format!("{letter}{number}"))
        .collect();
    names.join(",")
}

/// The name of three letters with this number: AAA, AAB and so on.
fn three_letters(number: usize) -> String {
    let letter = |number: usize| char::from(b'A' + (number % 26) as u8);
    [letter(number / 676), letter(number / 26), letter(number)]
        .iter()
        .collect()
}

/// A main program that evaluates an expression and gives its value.
fn expression(expression: &str) -> Bodies {
    vec![format!("%DCL R CHAR;%R={expression};R")]
}

/// A main program whose one procedure runs these statements.
fn in_procedure(statements: &str) -> Bodies {
    vec![format!(
        "%DCL R FIXED;%P:PROC RETURNS(FIXED);{statements}RETURN(1);%END;%R=P;R"
    )]
}

/// 5,000 infix operators, each with 11 prefix operators behind it.
fn operators() -> Bodies {
    expression(&format!("1{}", "+-+-+-+-+-+-1".repeat(5_000)))
}

fn operators_infix() -> Bodies {
    expression(&format!("1{}", "+1-1".repeat(16_000)))
}

/// From the loosest operator to the tightest and back.
fn operators_of_each_kind() -> Bodies {
    expression(&format!("1{}", "|1&1=''||1+1*1".repeat(4_600)))
}

/// A long expression costs one step, however long it is.
fn operators_in_a_loop() -> Bodies {
    let long = "+1-1".repeat(15_000);
    in_procedure(&format!("DCL (I,A) FIXED;DO I=1 TO 200;A=1{long};END;"))
}

fn prefix_minus() -> Bodies {
    expression(&format!("{}1", "-".repeat(60_000)))
}

/// 60000 and its 17 bits the other way round, 71071, are both FIXED.
fn prefix_mixed() -> Bodies {
    expression(&format!("{}60000", "+-^".repeat(20_000)))
}

fn joins() -> Bodies {
    expression(&format!("''{}", "||''".repeat(16_000)))
}

fn comparisons() -> Bodies {
    expression(&format!("1{}", "=1".repeat(30_000)))
}

/// Two sides that differ in their last place, 40,000 times.
fn comparisons_of_512() -> Bodies {
    let side = "v".repeat(511);
    in_procedure(&format!(
        "DCL I FIXED,(V,W) CHAR;V='{side}w';W='{side}x';DO I=1 TO 20000;IF V=W|V||''>W THEN RETURN(I);END;"
    ))
}

fn parentheses(depth: usize) -> Bodies {
    expression(&format!("{}1{}", "1+(".repeat(depth), ")".repeat(depth)))
}

fn parentheses_repeated() -> Bodies {
    let nest = format!("+{}1{}", "(".repeat(16), ")".repeat(16));
    expression(&format!("1{}", nest.repeat(1_900)))
}

/// Groups of each kind in one another: 12, and so many more.
fn groups(more: usize) -> Bodies {
    let open = "%DO;".repeat(4) + &"%IF 1 %THEN %DO;".repeat(4) + &"%DO;".repeat(more);
    vec![format!("{open}A{}", "%END;".repeat(8 + more))]
}

/// 16 iterated groups of two passes each in one another, in a procedure.
fn groups_iterated() -> Bodies {
    let open: String = (1..=16)
        .map(|number| format!("DO I{number}=1 TO 2;"))
        .collect();
    let controls = numbered("I", 16);
    let ends = "END;".repeat(16);
    in_procedure(&format!("DCL ({controls},N) FIXED;N=0;{open}N=N+1;{ends}"))
}

/// Procedures that call the next, then what calls the first.
fn calls(count: usize, begin: &str) -> Bodies {
    let mut main = format!("%DCL R CHAR;%DCL ({}) ENTRY;", numbered("P", count));
    for number in 1..=count {
        let value = match number == count {
            true => "1".to_string(),
            false => format!("1+P{}", number + 1),
        };
        main += &format!("%P{number}:PROC RETURNS(FIXED);RETURN({value});%END;");
    }
    vec![main + begin]
}

/// Variables whose values name the next.
fn replacement(levels: usize) -> Bodies {
    let mut main = format!("%DCL ({}) CHAR;", numbered("V", levels));
    for number in 1..levels {
        main += &format!("%V{number}='V{}';", number + 1);
    }
    vec![main + &format!("%V{levels}='x';V1")]
}

const ECHO: &str = "%DCL P ENTRY;%P:PROC(A)RETURNS(CHAR);DCL A CHAR;RETURN(A);%END;";

fn arguments_nested(levels: usize) -> Bodies {
    let (open, close) = ("P(".repeat(levels), ")".repeat(levels));
    vec![format!("{ECHO}{open}x{close}")]
}

/// Each value names the next three times in an argument, and nothing comes out.
fn replacement_tree() -> Bodies {
    let mut main = format!("%DCL P ENTRY,({}) CHAR;", numbered("V", 16));
    main += "%P:PROC(A)RETURNS(CHAR);DCL A CHAR;RETURN('');%END;%V16='';";
    for number in 1..16 {
        let next = format!("V{}", number + 1);
        main += &format!("%V{number}='P({next} {next} {next})';");
    }
    vec![main + "V1"]
}

/// Members that include the next.
fn include(levels: usize) -> Bodies {
    let mut bodies: Bodies = (1..=levels)
        .map(|next| format!("a%INCLUDE M{next};b"))
        .collect();
    bodies.push("c".to_string());
    bodies
}

fn include_many() -> Bodies {
    let mut bodies = vec![format!("%INCLUDE {};", numbered("M", 31))];
    bodies.extend((1..32).map(|_| "x%;".repeat(60)));
    bodies
}

/// A member that is left by GOTO and included again, until the sentences are too many.
fn include_in_a_loop() -> Bodies {
    vec!["%L:INCLUDE M1;".to_string(), "%GOTO L;".to_string()]
}

/// 16 groups and alternatives in one another.
fn nest(inside: &str) -> String {
    let open = "%DO;".repeat(8) + &"%IF 1 %THEN %DO;".repeat(4);
    format!("{open}{inside}{}", "%END;".repeat(12))
}

/// 8 include levels of 16 groups each, 32 replacement levels, 16 procedures of 16 groups each with an expression of
/// 16 parentheses in which 7 values wait; `last` is what the last procedure evaluates.
fn all_at_once(last: &str) -> Bodies {
    let mut main = format!(
        "%DCL ({},W) CHAR;%DCL ({}) ENTRY;",
        numbered("V", 31),
        numbered("P", 16)
    );
    main += &format!("%W='{}';", ".".repeat(512));
    for number in 1..31 {
        main += &format!("%V{number}='V{}';", number + 1);
    }
    main += "%V31='P1(x)';";
    for number in 1..=16 {
        let call = match number {
            16 => last.to_string(),
            _ => format!("P{}(A)", number + 1),
        };
        let open = "DO;".repeat(8) + &"IF 1 THEN DO;".repeat(4);
        let value = format!(
            "{}{}{call}{}",
            "W=(".repeat(7),
            "(".repeat(8),
            ")".repeat(15)
        );
        let ends = "END;".repeat(12);
        main += &format!(
            "%P{number}:PROC(A)RETURNS(CHAR);DCL A CHAR;{open}RETURN({value});{ends}%END;"
        );
    }
    let mut bodies = vec![main + &nest("%INCLUDE M1;")];
    bodies.extend((2..=8).map(|next| nest(&format!("%INCLUDE M{next};"))));
    bodies.push(nest("V1"));
    bodies
}

fn sentences(count: usize) -> Bodies {
    vec!["%;".repeat(count)]
}

/// 1,024 sentences in the main program and in M1, one in M2.
fn sentences_in_two(members: &str) -> Bodies {
    let main = "%;".repeat(1_023) + &format!("%INCLUDE {members};");
    vec![main, "%;".repeat(1_024), "%;".to_string()]
}

/// So many variables, each with 512 bytes.
fn names(count: usize) -> Bodies {
    let mut main = format!(
        "%DCL ({}) CHAR;%V1='{}';",
        numbered("V", count),
        ".".repeat(512)
    );
    for number in 2..=count {
        main += &format!("%V{number}=V{};", number - 1);
    }
    vec![main + &format!("V{count}")]
}

/// A loop of 200,000 steps with the last of 250 names of 31 bytes that differ in their ends.
fn names_far() -> Bodies {
    let long = |number: usize| format!("{}{number:03}", "N".repeat(28));
    let all: Vec<String> = (1..=250).map(long).collect();
    let last = long(250);
    let statements = format!("{last}={last};").repeat(9);
    let mut bodies = in_procedure(&format!(
        "DCL I FIXED;{last}=1;DO I=1 TO 5000;{statements}END;"
    ));
    bodies[0].insert_str(0, &format!("%DCL ({}) FIXED;", all.join(",")));
    bodies
}

/// A value doubled up to 512 bytes, compared, cut, scanned, and then something more.
fn value(more: &str) -> Bodies {
    let double = "%R=R||R;".repeat(9);
    let same = "%IF (R=R)&(SUBSTR(R,1,511)||'.'=R)&^(R<R) %THEN %S=R;";
    vec![format!("%DCL (R,S) CHAR;%R='.';{double}{same}{more}R S")]
}

/// The part that a GOTO leaves gives no blank, so nothing but the steps ends it.
fn goto_loop() -> Bodies {
    vec!["%L:GOTO L;".to_string()]
}

fn goto_far() -> Bodies {
    in_procedure(&format!("A:GOTO B;{}B:GOTO A;", ";".repeat(1_000)))
}

/// A label on the outermost of 16 groups, and a GOTO in the innermost.
fn goto_out() -> Bodies {
    vec![nest("%GOTO L;").replacen("%DO;", "%L:DO;", 1)]
}

/// A loop that ends by itself shortly before the steps do.
fn assignments() -> Bodies {
    let nine = "A=B;B=A+1;B=A;".repeat(3);
    in_procedure(&format!(
        "DCL (A,B,I,J) FIXED;B=1;DO J=1 TO 10;DO I=1 TO 9998;{nine}END;END;"
    ))
}

/// A procedure of 255 parameters, as many as the names allow, and a call with so many arguments.
fn called_with(arguments: usize) -> (String, String) {
    let parameters = numbered("A", 255);
    let declare = format!("DCL ({parameters}) CHAR;");
    let procedure = format!("%P:PROC({parameters})RETURNS(CHAR);{declare}RETURN(A1||A255);%END;");
    let values: Vec<String> = (1..=arguments).map(|number| number.to_string()).collect();
    (procedure, format!("P({})", values.join(",")))
}

fn arguments(count: usize) -> Bodies {
    let (procedure, call) = called_with(count);
    vec![format!("{procedure}%IF {call}=1||255 %THEN %DO;yes%END;")]
}

fn arguments_in_text(count: usize) -> Bodies {
    let (procedure, call) = called_with(count);
    vec![format!("{procedure}%ACT P;{call}")]
}

fn arguments_of_substr() -> Bodies {
    expression(&format!("SUBSTR({}1)", "1,".repeat(30_000)))
}

/// A list declares nothing, so it may be this long; the call is refused.
fn parameters(count: usize, more: &str) -> Bodies {
    let names: Vec<String> = (0..count).map(three_letters).collect();
    let names = names.join(",");
    vec![format!(
        "%P:PROC({names}{more})RETURNS(CHAR);RETURN(1);%END;%ACT P;P(1)"
    )]
}

fn labels_same() -> Bodies {
    vec![format!("%{};", "A:".repeat(30_000))]
}

fn labels_distinct() -> Bodies {
    let labels: String = (0..15_000)
        .map(|number| three_letters(number) + ":")
        .collect();
    vec![format!("%{labels};")]
}

/// The name behind END is none of many labels.
fn labels_end() -> Bodies {
    vec![format!("%{}DO;%END B;", "A:".repeat(30_000))]
}

fn comment() -> String {
    format!("/*{}*/", "* ".repeat(30_000))
}

fn comment_in_statement() -> Bodies {
    expression(&format!("{}1", comment()))
}

fn comment_in_a_loop() -> Bodies {
    let comment = comment();
    in_procedure(&format!("DCL (I,A) FIXED;DO I=1 TO 2000;A={comment}1;END;"))
}

/// An expression that is one thing repeated up to 60,000 bytes.
fn constant(before: &str, repeated: &str, behind: &str) -> Bodies {
    let inside = repeated.repeat(60_000 / repeated.len());
    expression(&format!("{before}{inside}{behind}"))
}

/// 16 IFs in one another, then many blanks before what may be an ELSE.
fn else_far(behind: &str) -> Bodies {
    let (ifs, blanks) = ("%IF 1 %THEN ".repeat(16), " \n/*%*/".repeat(8_000));
    vec![format!("{ifs}%;{blanks}{behind}")]
}

/// 16 calls in one another, for each of which 8 values of 512 bytes wait.
fn waiting(before: &str) -> Bodies {
    let parameters = numbered("A", 8);
    let mut main = format!(
        "%DCL V CHAR;%V='{}';%P:PROC({parameters},N)RETURNS(FIXED);\
         DCL ({parameters}) CHAR,N FIXED;RETURN(N+1);%END;",
        ".".repeat(512)
    );
    let open = format!("P({}", "V,".repeat(8)).repeat(16);
    main += &format!("%DCL R CHAR;%R={before}{open}1{};R", ")".repeat(16));
    vec![main]
}

/// 16 procedures that call the next while 8 values of 512 bytes wait in each.
fn waiting_in_procedures(last: &str) -> Bodies {
    let mut main = format!("%DCL (R,W) CHAR;%W='{}';", ".".repeat(512));
    for number in 1..=16 {
        let inside = match number {
            16 => last.to_string(),
            _ => format!("P{}", number + 1),
        };
        let value = format!("{}{inside}{}", "W=(".repeat(8), ")".repeat(8));
        main += &format!("%P{number}:PROC RETURNS(CHAR);RETURN({value});%END;");
    }
    vec![main + "%R=P1;R"]
}

/// 16 calls in one another in text, with so many arguments of 512 bytes before the next.
fn waiting_in_text(count: usize) -> Bodies {
    let parameters = numbered("A", count + 1);
    let main = format!(
        "%DCL V CHAR;%V='{}';%P:PROC({parameters})RETURNS(CHAR);DCL ({parameters}) CHAR;RETURN('.');%END;%ACT P;",
        ".".repeat(512)
    );
    let open = format!("P({}", "V,".repeat(count)).repeat(16);
    vec![format!("{main}{open}{}", ")".repeat(16))]
}

/// 127 values of 512 bytes wait for a call, then the characters of a FIXED s in SUBSTR, then an argument of so many
/// bytes.
fn waiting_in_substr(last: usize) -> Bodies {
    let parameters = numbered("A", 128);
    let mut main = format!("%DCL (R,V,W) CHAR;%V='{}';", ".".repeat(512));
    main += &format!("%W='{}';", ".".repeat(last));
    main +=
        &format!("%P:PROC({parameters})RETURNS(FIXED);DCL ({parameters}) CHAR;RETURN(A128);%END;");
    main += "%Q:PROC(A)RETURNS(FIXED);DCL A CHAR;RETURN(2);%END;";
    let values = "V,".repeat(127);
    vec![main + &format!("%R=P({values}SUBSTR(12345,Q(W)));R")]
}

/// A procedure that gives back its argument, one that gives a number, one that gives nothing, and a long value.
fn givers() -> String {
    let procedure = |name: &str, kind: &str, value: &str| {
        format!("%{name}:PROC(A)RETURNS({kind});DCL A CHAR;RETURN({value});%END;%ACT {name};")
    };
    let procedures =
        procedure("E", "CHAR", "A") + &procedure("Q", "FIXED", "2") + &procedure("Z", "CHAR", "''");
    format!("{procedures}%DCL V CHAR;%V='{}';", ".".repeat(512))
}

/// Whatever uses a value up gives its place back, else the room is full after some passes.
fn waiting_given_back() -> Bodies {
    let statements = "C=V||'';D=SUBSTR(C,Q(C),300)||SUBSTR(E(C),1,3);IF C=D THEN;IF ^'1010'B|'1'B THEN;\
                      IF ('1'B||'01'B)<C THEN;N=Q(D)+'12 '-'101'B;D=E(E(N))||Z(C);DO N='1' TO '2'||'';END;";
    let mut bodies = in_procedure(&format!(
        "DCL (I,N) FIXED,(C,D) CHAR;DO I=1 TO 1000;{statements}END;"
    ));
    bodies[0].insert_str(0, &givers());
    bodies
}

/// The same for values and arguments that are scanned.
fn waiting_given_back_in_text() -> Bodies {
    let calls = "Z(E(V)) Z(E(Q(V))) ".repeat(150);
    vec![format!(
        "{}{calls}%ACT E NORESCAN,V NORESCAN;{calls}",
        givers()
    )]
}

/// 2 blanks, 127 times 512 bytes and one, and so many bytes more.
fn text_room(more: usize) -> Bodies {
    let value = ".".repeat(512);
    vec![format!(
        "%DCL V CHAR;%V='{value}';{}{}",
        "V+".repeat(127),
        "+".repeat(more)
    )]
}

/// 3 blanks, 28 times 256 numbers with a byte behind each and one more, 110 such numbers, and so many bytes more.
fn text_of_numbers(more: usize) -> Bodies {
    vec![format!(
        "%DCL F FIXED,V CHAR;%F=-7;%V='{}';{}{}{}",
        "F+".repeat(256),
        "V;".repeat(28),
        "F;".repeat(110),
        "+".repeat(more)
    )]
}

/// 2 blanks and 2,047 times two lines.
fn list_room(more: &str) -> Bodies {
    vec![format!("%DCL V CHAR;%V='.';{}{more}", "V+".repeat(2_047))]
}

/// Names that are none of the 256 that are declared, but for their ends.
fn text_of_names() -> Bodies {
    let long = |number: usize| format!("{}{number:03}", "N".repeat(28));
    let all: Vec<String> = (1..=256).map(long).collect();
    let text = (long(999) + " ").repeat(1_700);
    vec![format!("%DCL ({}) FIXED;{text}", all.join(","))]
}

/// A line of the library L1, L2 and so on.
fn line(library: usize, name: &str, body: &str) -> Shelved {
    (format!("L{library}"), name.to_string(), body.to_string())
}

/// A main program and the members M1, M2 and so on, all in the library L1.
fn shelf(bodies: &[&str]) -> Vec<Shelved> {
    let name = |number: usize| match number {
        0 => "MAIN".to_string(),
        _ => format!("M{number}"),
    };
    (0..)
        .zip(bodies)
        .map(|(number, body)| line(1, &name(number), body))
        .collect()
}

/// Pairs of one member with the libraries from the second on, with commas between.
fn pairs_of(name: &str, count: usize) -> String {
    let pairs: Vec<String> = (2..=count)
        .map(|number| format!("L{number}({name})"))
        .collect();
    pairs.join(",")
}

/// One member name in so many libraries; the first line includes all others.
fn one_name(count: usize) -> Vec<Shelved> {
    let mut lines = vec![line(
        1,
        "LIMITS",
        &format!("%INCLUDE {};", pairs_of("LIMITS", count)),
    )];
    let body = "x%;".repeat(60);
    lines.extend((2..=count).map(|number| line(number, "LIMITS", &body)));
    lines
}

/// Names of eight bytes in both places that differ in their ends, included in the opposite order.
fn every_pair(count: usize) -> Vec<Shelved> {
    let name = |number: usize| format!("NAMES_{number:02}");
    let items: Vec<String> = (1..count)
        .rev()
        .map(|number| format!("{}({})", name(number % 4), name(number)))
        .collect();
    let main = format!("%INCLUDE {};", items.join(","));
    let body = |number: usize| {
        if number == 0 {
            main.clone()
        } else {
            format!("{number};")
        }
    };
    (0..count)
        .map(|number| (name(number % 4), name(number), body(number)))
        .collect()
}

/// A bare name that 30 lines have, and one that only the last has.
fn bare_names() -> Vec<Shelved> {
    let mut lines = shelf(&["%INCLUDE M,N,M,N;"]);
    lines.extend((2..=31).map(|number| line(number, "M", if number == 2 { "m" } else { "%" })));
    lines.push(line(32, "N", "n"));
    lines
}

/// The pair of the last of 32 lines 3,000 times in one INCLUDE, and that 100 times. Its body is empty, so there is one
/// blank for each INCLUDE.
fn again_and_again() -> Vec<Shelved> {
    let items = vec!["L9(M)"; 3_000].join(",");
    let main = format!("%DCL I FIXED;%DO I=1 TO 100;%INCLUDE {items};%END;");
    let mut lines = shelf(&[&main]);
    lines.extend((10..40).map(|number| line(number, "M", "%")));
    lines.push(line(9, "M", ""));
    lines
}

/// All but the last of 9,000 items meet a line.
fn unknown_at_last() -> Vec<Shelved> {
    let items = "L1(M1),".repeat(9_000);
    shelf(&[&format!("%INCLUDE {items}L1(M2);"), ""])
}

/// Members of one name that include that of the next library.
fn levels(count: usize) -> Vec<Shelved> {
    let body = |number: usize| match number > count {
        true => "c".to_string(),
        false => format!("a%INCLUDE L{}(M);b", number + 1),
    };
    (1..=count + 1)
        .map(|number| line(number, "M", &body(number)))
        .collect()
}

/// Three members of one name that include one another, the main program by its bare name, up to the ninth level.
fn main_again() -> Vec<Shelved> {
    vec![
        line(1, "MAIN", "%INCLUDE L2(MAIN);"),
        line(2, "MAIN", "%INCLUDE L3(MAIN);"),
        line(3, "MAIN", "%INCLUDE MAIN;"),
    ]
}

/// 31 members of one name with 66 sentences each, one sentence of the main program, and one null statement more.
fn many_sentences(more: &str) -> Vec<Shelved> {
    let mut lines = one_name(32);
    for (_, _, body) in lines.iter_mut().skip(1) {
        *body = "%;".repeat(66);
    }
    lines[31].2.push_str("%;");
    lines[31].2.push_str(more);
    lines
}

/// So many names in 31 members of one name.
fn many_names(count: usize) -> Vec<Shelved> {
    let mut lines = one_name(32);
    for (number, (_, _, body)) in lines.iter_mut().enumerate().skip(1) {
        let names: Vec<String> = (0..count)
            .filter(|name| name % 31 == number - 1)
            .map(|name| format!("V{name}"))
            .collect();
        *body = format!("%DCL ({}) FIXED;", names.join(","));
    }
    lines
}

/// Spaces of 13,000 bytes on both sides of both parentheses.
fn far_parentheses() -> Vec<Shelved> {
    let (blanks, comment) = (" ".repeat(13_000), comment_of(13_000));
    shelf(&[
        &format!("%INCLUDE L1{blanks}({comment}M1{comment}){blanks};"),
        "x",
    ])
}

/// 32 lines and a deck of so many bytes.
fn filled_up(size: usize) -> Vec<Shelved> {
    let mut lines = one_name(32);
    let rest: usize = lines.iter().map(|line| line.2.len()).sum();
    lines[31].2.push_str(&".".repeat(size - 2 - 24 * 32 - rest));
    lines
}

/// 32 lines and so many records in all.
fn records_of(records: usize) -> Vec<Shelved> {
    let mut lines = one_name(32);
    for (_, _, body) in lines.iter_mut().skip(1) {
        *body = ".".repeat(71);
    }
    let others = 30 + lines[0].2.len().div_ceil(71);
    lines[31].2 = ".".repeat(71 * (records - others));
    lines
}
