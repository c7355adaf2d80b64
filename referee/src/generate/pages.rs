//! Pages of text: many tokens one behind another, names and calls among them, so that the edges of records fall into them.

use super::programs::Bodies;
use super::random::Random;

/// What the pages use.
const BEFORE: &[u8] =
    b"%DCL (A,AB,L_1,Z) CHAR,N FIXED,(E,F,P) ENTRY;%A='x';%AB='A+A';%L_1='(P(A,N))';%Z='';%N=12;\
%E:PROC RETURNS(FIXED);RETURN(7);%END;%F:PROC(X)RETURNS(CHAR);DCL X CHAR;RETURN(X);%END;\
%P:PROC(X,Y)RETURNS(CHAR);DCL (X,Y) CHAR;RETURN(X||'.'||Y);%END;";

const NAMES: &[&[u8]] = &[
    b"A",
    b"AB",
    b"L_1",
    b"Z",
    b"N",
    b"E",
    b"Q",
    b"B",
    b"LONGER_NAME_9",
];

const CALLS: &[&[u8]] = &[
    b"F(AB)",
    b"P(A,N)",
    b"P (A,'x,y')",
    b"P(F(AB), Z)",
    b"F((1,2))",
    b"F()",
    b"P(A,/*,*/B)",
    b"F   (L_1)",
];

const OTHERS: &[&[u8]] = &[
    b"'A''B'", b"'%A'", b"''", b"/*A%'*/", b"/**/", b"12A", b"9_B", b"abc", b"+", b"||", b"(",
    b")", b",", b";", b"\n", b"   ", b"_", b"\xFF",
];

const STATEMENTS: &[&[u8]] = &[
    b"%;",
    b"%N=N+1;",
    b"%ACT A NORESCAN;",
    b"%ACT A,AB;",
    b"%DEACT AB;",
    b"%DEACT A,P;",
    b"%Z=Z||'z';",
    b"%IF N>13 %THEN %ACT P; %ELSE %DEACT N;",
];

/// A main program with a page of text, and a member with another that it may include.
pub fn pages(random: &mut Random) -> Bodies {
    let mut main = BEFORE.to_vec();
    page(random, &mut main);
    if random.percent(40) {
        main.extend_from_slice(b"%INCLUDE M;");
        page(random, &mut main);
    }
    let mut member = Vec::new();
    page(random, &mut member);
    Bodies {
        names: vec![b"MAIN".to_vec(), b"M".to_vec()],
        bodies: vec![main, member],
        ..Bodies::default()
    }
}

fn page(random: &mut Random, body: &mut Vec<u8>) {
    for _ in 0..random.between(5, 90) {
        match random.weighted(&[35, 12, 40, 7, 4]) {
            0 => body.extend_from_slice(random.word(NAMES)),
            1 => body.extend_from_slice(random.word(CALLS)),
            2 => body.extend_from_slice(random.word(OTHERS)),
            3 => body.extend_from_slice(random.word(STATEMENTS)),
            _ => long_token(random, body),
        }
        body.extend_from_slice(random.word(&[b" ", b" ", b"+", b""]));
    }
}

/// A token that crosses one edge or two.
fn long_token(random: &mut Random, body: &mut Vec<u8>) {
    const FORMS: &[(&[u8], u8, &[u8])] = &[
        (b"", b'A', b""),
        (b"1", b'B', b""),
        (b"'", b'%', b"'"),
        (b"/*", b'\'', b"*/"),
        (b"F(", b'-', b")"),
        (b"F(", b'A', b")"),
        (b"", b' ', b""),
    ];
    if let Some((before, repeated, behind)) = random.pick(FORMS) {
        body.extend_from_slice(before);
        body.resize(body.len() + random.between(30, 160), *repeated);
        body.extend_from_slice(behind);
    }
}
