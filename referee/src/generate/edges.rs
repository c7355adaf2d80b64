//! Decks that stand at the limits of 01, or one short of or past them.

use super::programs::Bodies;
use super::random::Random;

/// A deck at some limit.
pub fn edge(random: &mut Random) -> Bodies {
    match random.weighted(&[8, 10, 14, 12, 8, 8, 5, 7, 6, 8, 8, 3, 6, 4, 9]) {
        0 => main(parentheses(random)),
        1 => main(nested_groups(random)),
        2 => main(long_name(random)),
        3 => main(long_value(random)),
        4 => many_sentences(random),
        5 => many_names(random),
        6 => include_levels(random),
        7 => main(replacement_levels(random)),
        8 => main(running_procedures(random)),
        9 => main(waiting_values(random)),
        10 => main(number_ends(random)),
        11 => big_deck(random),
        12 => main(substr_ends(random)),
        13 => many_members(random),
        _ => main(long_sides(random)),
    }
}

fn main(body: Vec<u8>) -> Bodies {
    Bodies {
        names: vec![b"MAIN".to_vec()],
        bodies: vec![body],
        ..Bodies::default()
    }
}

fn two(body: Vec<u8>, second: Vec<u8>) -> Bodies {
    Bodies {
        names: vec![b"MAIN".to_vec(), b"A".to_vec()],
        bodies: vec![body, second],
        ..Bodies::default()
    }
}

/// 14 to 18 parentheses, of argument lists or alone.
fn parentheses(random: &mut Random) -> Vec<u8> {
    let mut body = b"%DCL R CHAR,P ENTRY;%P:PROC(A)RETURNS(CHAR);DCL A CHAR;".to_vec();
    let inside = random.one_in(3);
    body.extend_from_slice(if inside {
        b"RETURN("
    } else {
        b"RETURN(A);%END;%R="
    });
    let depth = random.between(14, 18);
    let mut closing = Vec::new();
    for _ in 0..depth {
        match random.below(4) {
            0 if !inside => body.extend_from_slice(b"P("),
            1 => {
                body.extend_from_slice(b"SUBSTR(");
                closing.push(&b",1)"[..]);
                continue;
            }
            2 => body.extend_from_slice(b"1||("),
            _ => body.push(b'('),
        }
        closing.push(b")");
    }
    body.push(b'7');
    if random.one_in(4) {
        body.truncate(body.len() - random.below(3));
    }
    for close in closing.iter().rev() {
        body.extend_from_slice(close);
    }
    body.extend_from_slice(if inside { b");%END;P(1)" } else { b";R" });
    body
}

/// 14 to 19 groups and alternatives, perhaps with a procedure among them.
fn nested_groups(random: &mut Random) -> Vec<u8> {
    let mut body = b"%DCL I FIXED,P ENTRY;".to_vec();
    let depth = random.between(14, 19);
    let turn = random.below(depth + 8);
    let mut closing: Vec<&[u8]> = Vec::new();
    let mut percent: &[u8] = b"%";
    for level in 0..depth {
        if level == turn {
            body.extend_from_slice(b"%P:PROC RETURNS(CHAR);");
            closing.push(b"RETURN('p');%END;");
            percent = b"";
        }
        body.extend_from_slice(percent);
        match random.below(5) {
            0 => body.extend_from_slice(b"DO I=1 TO 1;"),
            1 | 2 => {
                body.extend_from_slice(b"IF 1 ");
                body.extend_from_slice(percent);
                body.extend_from_slice(b"THEN ");
                if random.one_in(3) {
                    body.extend_from_slice(percent);
                    body.extend_from_slice(b"; ");
                    body.extend_from_slice(percent);
                    body.extend_from_slice(b"ELSE ");
                }
                continue;
            }
            _ => body.extend_from_slice(b"DO;"),
        }
        closing.push(if percent.is_empty() {
            b"END;"
        } else {
            b"%END;"
        });
    }
    body.extend_from_slice(percent);
    body.extend_from_slice(b";");
    for close in closing.iter().rev() {
        body.extend_from_slice(close);
    }
    body.extend_from_slice(b"P");
    body
}

/// Where a name can stand or cannot; `~` is the name.
const NAME_PLACES: &[&[u8]] = &[
    b"%DCL ~ CHAR;%~=1;~",
    b"%~:;%IF 0 %THEN %GOTO ~;A",
    b"%L:DO;%END ~;",
    b"%~:DO;%END ~;",
    b"%GO ~;",
    b"%INCLUDE ~;",
    b"%INCLUDE ~(A);",
    b"%INCLUDE A(~);",
    b"%INCLUDE A(A ~);",
    b"%ACT ~;",
    b"%DCL A CHAR;%ACT A ~;",
    b"%DCL A ~;",
    b"%P:PROC(~) RETURNS(CHAR);DCL ~ CHAR;RETURN(~);%END;%ACT P;P(1)",
    b"%P:PROC RETURNS(~);%END;",
    b"%X=~;",
    b"%X=1 ~;",
    b"%X=12~;",
    b"%DO ~=1;%END;",
    b"%DO I=1 ~ 2;%END;",
    b"%IF ~ %THEN %;",
    b"%IF 1 %~ %;",
    b"%~ ~;",
    b"%DCL (A,~) FIXED;",
    b"%P: ~: PROC RETURNS(CHAR);~:RETURN(1);%END ~;",
    b"%P:PROC RETURNS(CHAR);RETURN(1);%~:END;",
    b"%P:PROC RETURNS(CHAR);RETURN(1);%~;",
    b"%DO;%~:END;",
    b"%DEACT ~;",
    b"~ '~' /*~*/ ~~",
    b"%DCL A CHAR;%A='~';A",
    b"%P:PROC RETURNS(CHAR);~ ;%END;",
    b"%IF 1 %THEN %; %~ ;",
];

/// A name of 29 to 33 bytes somewhere.
fn long_name(random: &mut Random) -> Vec<u8> {
    let name = vec![b'N'; random.between(29, 33)];
    let place = random.word(NAME_PLACES);
    let mut body = Vec::new();
    for byte in place {
        match byte {
            b'~' => body.extend_from_slice(&name),
            byte => body.push(*byte),
        }
    }
    body
}

/// Values of 509 to 514 places, in several ways.
fn long_value(random: &mut Random) -> Vec<u8> {
    let length = random.between(509, 514);
    let half = length / 2;
    let run = |byte: u8, count: usize| String::from_utf8_lossy(&vec![byte; count]).into_owned();
    let rest = length - half;
    let body = match random.below(12) {
        0 => format!("%DCL R CHAR;%R='{}';R", run(b'X', length)),
        1 => format!("%DCL R CHAR;%R='{}'B;R", run(b'1', length)),
        2 => format!(
            "%DCL R CHAR;%R='{}'||'{}';R",
            run(b'X', half),
            run(b'y', rest)
        ),
        3 => format!("%DCL R CHAR;%R='{}'||12;%R=R||R;", run(b'X', half - 8)),
        4 => format!(
            "%DCL P ENTRY;%P:PROC(A)RETURNS(CHAR);DCL A CHAR;RETURN(A);%END;P({})",
            run(b'X', length)
        ),
        5 => format!(
            "%DCL P ENTRY;%P:PROC(A)RETURNS(FIXED);DCL A FIXED;RETURN(A);%END;P({}7)",
            run(b' ', length - 1)
        ),
        6 => format!(
            "%DCL P ENTRY,V CHAR;%V='{}';%ACT V NORESCAN;\
             %P:PROC(A)RETURNS(CHAR);DCL A CHAR;RETURN(A);%END;P(VV V{})",
            run(b'z', half),
            run(b'+', rest - 2)
        ),
        7 => format!("%IF '{}'&1 %THEN %;A", run(b'0', length)),
        8 => format!("%DCL R CHAR;%R='{}';R", "''".repeat(length)),
        9 => format!("%DCL R CHAR;%R=-12345||'{}';R", run(b'y', length - 8)),
        10 => format!(
            "%DCL P ENTRY,F FIXED;%F={half};%P:PROC(A)RETURNS(CHAR);DCL A CHAR;RETURN(A);%END;P({}F)",
            run(b'-', length - 8)
        ),
        _ => format!(
            "%DCL R FIXED;%R='{}7{}'||8;R",
            run(b'0', half),
            run(b' ', rest - 9)
        ),
    };
    body.into_bytes()
}

/// About 1,024 sentences in a member, or about 2,048 in those entered.
fn many_sentences(random: &mut Random) -> Bodies {
    if random.percent(50) {
        return main(sentences_to(random, 1_024));
    }
    // The members are two, or one that comes again and again.
    let inside = random.between(300, 1_024);
    let others = random.between(1, 1_024);
    let list = match random.below(3) {
        0 => vec!["A", "B"],
        1 => vec!["A"; 2_048 / inside],
        _ => vec!["A", "B", "A", "B"],
    };
    let size = |name: &&str| if **name == *"A" { inside } else { others };
    let sum: usize = list.iter().map(size).sum();
    let rest = 2_048_usize.saturating_sub(sum).clamp(3, 1_020);
    let mut body = b"%;".repeat(rest - 2 + random.below(4));
    body.extend_from_slice(format!("%INCLUDE {};", list.join(",")).as_bytes());
    Bodies {
        names: vec![b"MAIN".to_vec(), b"A".to_vec(), b"B".to_vec()],
        bodies: vec![body, b"%;".repeat(inside), b"%;".repeat(others)],
        ..Bodies::default()
    }
}

/// Sentences up to about a count, and an ending that may still be one.
fn sentences_to(random: &mut Random, count: usize) -> Vec<u8> {
    const ENDINGS: &[&[u8]] = &[
        b"",
        b"%",
        b"%L:",
        b"%L",
        b"%IF 1 %THEN %;",
        b"%IF 1 %THEN %;%ELSE",
        b"%DO;%",
        b"%DO;%END",
        b"%IF 1 %THEN %; %",
        b"%DO;%END;",
        b"%DO;%;%END;",
        b"%X Y;",
        b"%)",
        b"%DO;%END=1;%END;",
        b"%P:PROC RETURNS(CHAR);;;%END;",
        b"%P:PROC RETURNS(CHAR);END",
        b"%IF 0 %THEN %;%ELSE %;",
        b"%P:PROC RETURNS(CHAR);DO;END",
        b"%P:PROC RETURNS(CHAR);IF 1 THEN;ELSE;%END;",
        b"%IF 1 %THEN %;%ELSE=1;%DCL ELSE CHAR;",
        b"%DCL X CHAR;",
        b"A%;",
        b"%P:PROC RETURNS(CHAR",
    ];
    let before = count - random.below(5);
    let mut body = Vec::new();
    if random.one_in(4) {
        body.extend_from_slice(b"%Q:PROC RETURNS(CHAR);");
        body.extend(b";".repeat(before - 1));
        body.extend_from_slice(b"%END;");
    } else {
        body.extend(b"%;".repeat(before));
    }
    body.extend_from_slice(random.word(ENDINGS));
    body
}

/// What may come behind about 256 names.
const AFTER_NAMES: &[&[u8]] = &[
    b"",
    b"%N1:;",
    b"%L:;",
    b"%L:M:;",
    b"%L ;",
    b"%L=1;",
    b"%DCL (X,Y,Z) CHAR;",
    b"%L:?",
    b"%DCL X ?",
    b"%P:PROC(A,B)RETURNS(CHAR);%END;",
    b"%DO;%L:END;",
    b"%P:PROC RETURNS(CHAR);L:;DCL(Q)BUILTIN;RETURN(1);%M:END;",
];

/// About 256 names, in one member or two.
fn many_names(random: &mut Random) -> Bodies {
    let (body, member) = names_in_two_bodies(random);
    let (mut body, mut member) = (body.into_bytes(), member.into_bytes());
    let ending = random.word(AFTER_NAMES);
    match (member.is_empty(), random.one_in(3)) {
        (false, false) => member.extend_from_slice(ending),
        _ => body.extend_from_slice(ending),
    }
    if !member.is_empty() {
        body.extend_from_slice(b"%INCLUDE A;");
    }
    two(body, member)
}

/// Names as variables, labels, entries and locals; the second body may be empty.
fn names_in_two_bodies(random: &mut Random) -> (String, String) {
    let count = random.between(253, 257);
    let mut names: Vec<String> = (0..count).map(|number| format!("N{number}")).collect();
    let none = String::new();
    match random.below(5) {
        0 => (format!("%DCL ({}) FIXED;", names.join(",")), none),
        1 => (format!("%{}:;", names.join(":")), none),
        2 => {
            let inside = names.split_off(random.between(1, 200)).join(",");
            let outside = names.join(":");
            let declare = format!("DCL ({inside}) FIXED;");
            let body = format!("%{outside}:PROC RETURNS(CHAR);{declare}RETURN(1);%END;");
            (body, none)
        }
        3 => {
            let second = names.split_off(random.between(1, 200)).join(",");
            let first = names.join(",");
            let member = format!("%DCL ({second}) CHAR;");
            (format!("%DCL ({first}) ENTRY;"), member)
        }
        _ => {
            // The same names in two procedures are names of two scopes.
            let locals = random.between(60, 124);
            let globals = (250 + random.below(4)).saturating_sub(2 * locals);
            let labels = names[..globals].join(":");
            let declare = format!(
                "PROC RETURNS(CHAR);DCL ({}) CHAR;",
                names[..locals].join(",")
            );
            let procedure = |name: &str| format!("%{name}:{declare}RETURN(1);%END;");
            (procedure("P") + &procedure("Q"), format!("%Z:{labels}:;"))
        }
    }
}

/// What may stand in the last of many members.
const DEEPEST_MEMBERS: &[&[u8]] = &[
    b"%L:;c",
    b"c",
    b"%",
    b"%GOTO Z;",
    b"%INCLUDE NOTHERE;",
    b"%INCLUDE M0;",
    b"%INCLUDE NOTHERE;",
];

/// Members that include the next, 6 to 10 of them, or one that includes itself.
fn include_levels(random: &mut Random) -> Bodies {
    if random.one_in(3) {
        let limit = random.between(6, 9);
        let body = b"%DCL N FIXED;%N=0;%INCLUDE A;N".to_vec();
        let member = format!("%N=N+1;x%IF N<{limit} %THEN %INCLUDE A;y");
        return two(body, member.into_bytes());
    }
    let count = random.between(7, 11);
    let name = |number: usize| format!("M{number}").into_bytes();
    let mut bodies = Vec::new();
    for number in 0..count {
        let mut body = format!("a%INCLUDE M{};b", number + 1).into_bytes();
        if number + 1 == count {
            body = random.word(DEEPEST_MEMBERS).to_vec();
        }
        if number == 0 && random.one_in(2) {
            body.extend_from_slice(b"%Z:;z");
        }
        bodies.push(body);
    }
    Bodies {
        names: (0..count).map(name).collect(),
        bodies,
        ..Bodies::default()
    }
}

/// Values that name the next variable, 30 to 34 levels deep.
fn replacement_levels(random: &mut Random) -> Vec<u8> {
    let levels = random.between(30, 34);
    let arguments = random.one_in(3);
    let mut body = String::from("%DCL P ENTRY;%P:PROC(A)RETURNS(CHAR);DCL A CHAR;RETURN(A);%END;");
    if arguments {
        body.push_str(&"P(".repeat(levels));
        body.push('x');
        body.push_str(&")".repeat(levels));
        return body.into_bytes();
    }
    let names: Vec<String> = (1..=levels).map(|number| format!("V{number}")).collect();
    body.push_str(&format!("%DCL ({}) CHAR;", names.join(",")));
    for number in 1..levels {
        let next = number + 1;
        let shape = match random.below(12) {
            0 => format!("P(V{next})"),
            1 => format!("V{next} V{levels}"),
            _ => format!("V{next}"),
        };
        body.push_str(&format!("%V{number}='{shape}';"));
    }
    let last = random.word(&[b"x", b"V1", b"", b"P", b"'", b"P(x,y)"]);
    let last = String::from_utf8_lossy(last).replace('\'', "''");
    body.push_str(&format!("%V{levels}='{last}';V1"));
    body.into_bytes()
}

/// Procedures that call the next, 14 to 18 of them.
fn running_procedures(random: &mut Random) -> Vec<u8> {
    let count = random.between(14, 18);
    let mut body = String::from("%DCL R CHAR;");
    if random.one_in(2) {
        body.push_str("%ACT P1;");
    }
    for number in 1..=count {
        let value = if number == count {
            ["7", "P1", "P2", "'x'", "P1(1)"][random.below(5)].to_string()
        } else {
            format!("1+P{}", number + 1)
        };
        body.push_str(&format!(
            "%P{number}:PROC RETURNS(CHAR);RETURN({value});%END;"
        ));
    }
    body.push_str(if random.one_in(2) { "P1" } else { "%R=P1;R" });
    body.into_bytes()
}

/// Many long arguments that wait for one call, just as many as the room for
/// them holds or a few bytes more (reading 28).
fn waiting_values(random: &mut Random) -> Vec<u8> {
    const SMALL: &[&str] = &[
        "1=1",
        "^1",
        "SUBSTR(99999,1)",
        "SUBSTR(123,1,Q(V))",
        "W||1",
        "(1|W)",
        "1",
        "'ABCDEFGH'",
        "-5",
        "SUBSTR(V,2,7)",
        "Q(V)",
        "''B",
        "'A'<W",
        "SUBSTR(V,1,9)||12",
        "W",
    ];
    let mut values = vec!["V"; random.between(125, 127)];
    if random.percent(75) {
        values.push("Y");
    }
    for _ in 0..random.below(6) {
        values.push(SMALL[random.below(SMALL.len())]);
    }
    let names: Vec<String> = (0..values.len())
        .map(|number| format!("A{number}"))
        .collect();
    let list = names.join(",");
    let mut body = format!(
        "%DCL (R,V,W,Y) CHAR,(P,Q) ENTRY;%P:PROC({list})RETURNS(CHAR);\
         DCL({list})CHAR;RETURN('r');%END;%Q:PROC(A)RETURNS(FIXED);DCL A CHAR;RETURN(1);%END;"
    );
    let letter = ["X", "0", "+"][random.below(3)];
    let length = random.between(480, 512);
    body.push_str(&format!(
        "%V='{}';%Y=SUBSTR(V,1,{length});",
        letter.repeat(512)
    ));
    body.push_str(&format!("%W='{}';", ["", "1", "10101"][random.below(3)]));
    if random.one_in(3) {
        body.push_str("%ACT V NORESCAN,Y NORESCAN;");
    }
    let values = values.join(",");
    body.push_str(&match random.below(5) {
        0 => format!("%R=P({values});R"),
        1 => format!("%R=W||P({values});R"),
        2 => format!("%R=P({values})||P({values});R"),
        3 => format!("P({values})"),
        _ => format!("P({values}) P({values})"),
    });
    body.into_bytes()
}

/// FIXED at the ends of its range.
fn number_ends(random: &mut Random) -> Vec<u8> {
    let near = |random: &mut Random| {
        let number = random.between(99_996, 100_001);
        match random.below(6) {
            0 => format!("-{number}"),
            1 => format!("'{number}'"),
            2 => format!("'{number:b}'B"),
            3 => format!("({number}-{})", random.below(4)),
            _ => number.to_string(),
        }
    };
    let (a, b) = (near(random), near(random));
    let small = random.below(4);
    let body = match random.below(8) {
        0 => format!("%DCL R FIXED;%R={a}+{small};R"),
        1 => format!("%DCL R CHAR;%R=-{a}-{small};R"),
        2 => format!("%DCL I FIXED;%DO I={a} TO {b};I %END;I"),
        3 => {
            format!("%DCL I FIXED;%DO I=-{a} TO -{b} BY -{small};I %IF I<-99998 %THEN %I=0;%END;I")
        }
        4 => format!("%DCL R CHAR;%R={a}*{small};R"),
        5 => format!("%DCL R CHAR;%R={a}/{small}||{b}/-{small};R"),
        6 => format!("%DCL R CHAR;%R=({a}<{b})||({a}={b})||^{a};R"),
        _ => format!("%DCL I FIXED;%DO I={a} BY {small} TO {b};I %END;I"),
    };
    body.into_bytes()
}

/// A deck of about 65,536 bytes.
fn big_deck(random: &mut Random) -> Bodies {
    let size = match random.one_in(5) {
        true => random.between(65_537, 131_072),
        false => random.between(65_534, 65_538),
    };
    let mut body = b"%DCL A CHAR;%A='x';A/*".to_vec();
    body.resize(size - 18 - 3, b' ');
    body.extend_from_slice(b"*/A");
    main(body)
}

/// 30 to 34 members.
fn many_members(random: &mut Random) -> Bodies {
    let count = random.between(30, 34);
    let names: Vec<Vec<u8>> = (0..count).map(|n| format!("M{n}").into_bytes()).collect();
    let mut bodies: Vec<Vec<u8>> = (0..count).map(|n| format!("{n}").into_bytes()).collect();
    let list = names.get(1..).unwrap_or(&[]).join(&b","[..]);
    bodies[0] = [b"%INCLUDE ", &list[..], b";"].concat();
    Bodies {
        names,
        bodies,
        ..Bodies::default()
    }
}

/// SUBSTR around the ends of its string, or of the eight characters of a number.
fn substr_ends(random: &mut Random) -> Vec<u8> {
    let number = random.one_in(3);
    let string = random.word(match number {
        true => &[b"123", b"-5", b"0", b"-99999", b"S+1"],
        false => &[b"''", b"'A'", b"'ABC'", b"'101'B", b"''B", b"S"],
    });
    let start = random.word(match number {
        true => &[b"0", b"1", b"2", b"5", b"6", b"7", b"8", b"9", b"10"],
        false => &[
            b"0", b"1", b"2", b"3", b"4", b"5", b"-1", b"99999", b"'2'", b"'X'",
        ],
    });
    let count = random.word(&[
        b"", b",0", b",1", b",2", b",3", b",4", b",8", b",-1", b",99999", b",'01'B",
    ]);
    let before = b"%DCL (R,S) CHAR;%S='01';%R=(SUBSTR(";
    let behind = random.word(&[b"))||'!';<R>", b"))||'1'B;<R>", b")='1'B);<R>"]);
    [before, string, b",", start, count, behind].concat()
}

/// A side of 509 to 512 places: as it is, cut, or joined out of two; its last places may differ.
fn long_side(random: &mut Random) -> String {
    let length = random.between(509, 512);
    let (filler, mark) = if random.one_in(3) {
        ("0", "B")
    } else {
        ("a", "")
    };
    let last = ["0", "1", "a", " ", "!", "\n"];
    // Only 0 and 1 can stand in a bit string.
    let last = last[random.below(if mark == "B" { 2 } else { last.len() })];
    let constant = |count: usize| format!("'{}{last}'{mark}", filler.repeat(count - 1));
    match random.below(6) {
        0 => "V".to_string(),
        1 => format!("SUBSTR(V,{})", random.between(1, 4)),
        2 => format!("'{}'{mark}||{}", filler.repeat(200), constant(length - 200)),
        3 => format!("'{}'||7", filler.repeat(length - 8)),
        4 => ["''", "''B", "' '", "7"][random.below(4)].to_string(),
        _ => constant(length),
    }
}

/// Comparisons of long sides, alone or while other values wait for their call.
fn long_sides(random: &mut Random) -> Vec<u8> {
    let operator = ["=", "^=", "<", ">", "<=", ">=", "^<", "^>"][random.below(8)];
    let compared = format!("{}{operator}{}", long_side(random), long_side(random));
    let mut body = format!("%DCL (R,V) CHAR;%V='{}';", "a".repeat(512));
    if random.one_in(3) {
        body += &format!("%R={compared};R%IF {compared} %THEN %DO;b%END;");
        return body.into_bytes();
    }
    let waiting = random.between(125, 127);
    let names: Vec<String> = (0..=waiting).map(|number| format!("A{number}")).collect();
    let names = names.join(",");
    body += &format!("%P:PROC({names})RETURNS(CHAR);DCL ({names}) CHAR;RETURN(A{waiting});%END;");
    body += &format!("%R=P({}{compared});R", "V,".repeat(waiting));
    body.into_bytes()
}
