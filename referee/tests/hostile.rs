//! Decks made to break an expander, and the program over the library.

use std::io::Write;
use std::process::{Command, Output, Stdio};

use referee::cards::Layout;
use referee::record::Record;
use referee::stack::with_large_stack;
use referee::{Answer, Rooms};

/// A deck of a main program and members named A, B, C and so on.
fn deck(bodies: &[Vec<u8>]) -> Vec<u8> {
    let mut deck = vec![bodies.len() as u8, 0];
    let mut offset = 2 + 16 * bodies.len();
    for (number, body) in bodies.iter().enumerate() {
        let name = match number {
            0 => b"MAIN    ".to_vec(),
            _ => format!("{}       ", char::from(b'@' + number as u8)).into_bytes(),
        };
        deck.extend(name);
        deck.extend((offset as u32).to_le_bytes());
        deck.extend((body.len() as u32).to_le_bytes());
        offset += body.len();
    }
    deck.extend(bodies.concat());
    deck
}

fn record(bodies: &[Vec<u8>]) -> Record {
    Record {
        layout: Layout::Plain,
        rooms: Rooms {
            text: u32::MAX,
            list: u32::MAX,
        },
        steps: 1_000_000,
        deck: deck(bodies),
    }
}

fn answer(main: String) -> Answer {
    let record = record(&[main.into_bytes()]);
    with_large_stack(move || record.expand()).expect("an answer")
}

fn place(answer: &Answer) -> (u32, usize) {
    (answer.number, answer.offset)
}

#[test]
fn long_chains_of_operators() {
    let value = |expression: String| {
        let answer = answer(format!("%DCL X CHAR;%X={expression};X"));
        assert_eq!(answer.number, 0);
        answer.text
    };
    assert_eq!(value(format!("{}1", "-".repeat(60_000))), b"         1");
    assert_eq!(value(format!("{}'01'B", "^".repeat(60_001))), b"  10");
    assert_eq!(value(format!("1{}", "+1-1".repeat(15_000))), b"         1");
    assert_eq!(value(format!("1{}", "|0&1=1".repeat(10_000)))[18], b'1');
}

#[test]
fn deep_nests_are_refused_where_they_begin() {
    assert_eq!(
        place(&answer(format!("%X={}", "(".repeat(60_000)))),
        (4, 19)
    );
    assert_eq!(
        place(&answer(format!("%X={}", "F(".repeat(30_000)))),
        (4, 36)
    );
    assert_eq!(place(&answer("%DO;".repeat(15_000))), (4, 65));
    assert_eq!(place(&answer("%IF 1 %THEN ".repeat(5_000))), (4, 204));
    assert_eq!(place(&answer("%DO;%A:".repeat(8_000))), (3, 7));
}

#[test]
fn long_lists() {
    assert_eq!(place(&answer(format!("%{};", "A:".repeat(30_000)))), (5, 3));
    let parameters = "A,".repeat(30_000);
    let procedure = format!("%P:PROC({parameters}A)RETURNS(CHAR);%END;");
    assert_eq!(place(&answer(procedure)), (5, 10));
    let call = format!("%DCL X CHAR;%X=SUBSTR({}1);", "1,".repeat(30_000));
    assert_eq!(place(&answer(call)), (11, 12));
    assert_eq!(place(&answer("'".repeat(60_001))), (3, 60_000));
    assert_eq!(place(&answer("%".repeat(60_000))), (3, 1));
}

/// Everything nests as deep as it may, all at once.
fn deepest() -> Record {
    let mut main = String::from("%DCL (I,R) FIXED,(");
    let names: Vec<String> = (1..=16).map(|number| format!("P{number}")).collect();
    main.push_str(&names.join(","));
    main.push_str(")ENTRY;%DCL V CHAR;%V='x';");
    for number in 1..=16 {
        let inner = match number {
            16 => "1".to_string(),
            _ => format!("P{}(1)", number + 1),
        };
        let open = "+(1+0*(''||".repeat(6) + "(";
        let close = ")".repeat(13);
        let groups = "DO;".repeat(8) + &"IF 1 THEN DO;".repeat(4);
        let ends = "END;".repeat(12);
        main.push_str(&format!(
            "%P{number}:PROC(A)RETURNS(CHAR);DCL A CHAR;\
             {groups}A=SUBSTR({open}{inner}{close},8,1)=1;RETURN(A);{ends}%END;"
        ));
    }
    let nest = |inside: &str| {
        let open = "%DO;".repeat(8) + &"%IF 1 %THEN %DO;".repeat(4);
        format!("{open}{inside}{}", "%END;".repeat(12))
    };
    main.push_str(&nest("%INCLUDE A;"));
    let mut bodies = vec![main.into_bytes()];
    for number in 1..8 {
        let next = char::from(b'A' + number);
        bodies.push(nest(&format!("%INCLUDE {next};")).into_bytes());
    }
    let calls = format!("{}P1(V){}", "P2(".repeat(30), ")".repeat(30));
    bodies.push(nest(&calls).into_bytes());
    record(&bodies)
}

#[test]
fn the_deepest_nest_of_all_runs() {
    let answer = with_large_stack(|| deepest().expand()).expect("an answer");
    assert_eq!((answer.number, answer.member, answer.offset), (0, 0, 0));
    assert!(answer.steps > 5_000, "{} steps", answer.steps);
}

/// The program with some bytes on its standard input.
fn run_program(input: &[u8]) -> Output {
    let mut child = Command::new(env!("CARGO_BIN_EXE_referee"))
        .stdin(Stdio::piped())
        .stdout(Stdio::piped())
        .stderr(Stdio::piped())
        .spawn()
        .expect("the program starts");
    let mut pipe = child.stdin.take().expect("its standard input");
    pipe.write_all(input).expect("the input is taken");
    drop(pipe);
    child.wait_with_output().expect("the program ends")
}

#[test]
fn the_program_says_if_flags_are_not_known() {
    let mut input = Vec::new();
    record(&[b"A".to_vec()]).write(&mut input).expect("bytes");
    for flags in [2, 3, 0x0100_0000] {
        let mut wrong = input.clone();
        wrong.splice(..4, u32::to_le_bytes(flags));
        let output = run_program(&wrong);
        assert_eq!(output.stdout, b"");
        assert_eq!(output.status.code(), Some(1));
    }
    let (cards, body) = (1_u32.to_le_bytes(), [b'A'; 80].to_vec());
    let mut input = Vec::new();
    record(&[body]).write(&mut input).expect("bytes");
    input.splice(..4, cards);
    let lines = b"0 0 0 1 72 2\nB 0 1 1\nC 0 1 71\n A";
    assert!(run_program(&input).stdout.starts_with(lines));
}

#[test]
fn the_program_answers_all_records_and_says_if_one_is_cut() {
    let mut input = Vec::new();
    record(&[b"A".to_vec()]).write(&mut input).expect("bytes");
    record(&[b"%".to_vec()]).write(&mut input).expect("bytes");
    let whole = run_program(&input);
    let expected = b"0 0 0 1 2 2\nB 0 0 1\nC 0 0 1\n A\n3 0 1 0 0 0\n\n";
    assert_eq!(whole.stdout, expected);
    assert_eq!(whole.status.code(), Some(0));
    for kept in [1, 19, 20, 24] {
        let mut longer = input.clone();
        longer.extend(&input[..kept]);
        let cut = run_program(&longer);
        assert_eq!(cut.stdout, expected);
        assert_eq!(cut.status.code(), Some(1));
        assert!(!cut.stderr.is_empty());
    }
    assert_eq!(run_program(b"").stdout, b"");
}
