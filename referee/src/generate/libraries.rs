//! Libraries (request C-14): decks of the second layout, INCLUDE of pairs, and the forms that may follow INCLUDE or not.

use super::damage::{damage_tokens, split};
use super::programs::Bodies;
use super::random::Random;
use super::world::any_name;
use crate::bytes::{find, folded, is_identifier};

/// A third of the decks get libraries; in a few others INCLUDE names pairs that no line meets.
pub fn perhaps(random: &mut Random, bodies: &mut Bodies) {
    if !bodies.libraries.is_empty() {
        return;
    }
    match random.weighted(&[34, 4, 62]) {
        0 => shelve(random, bodies),
        1 => write_pairs(random, bodies),
        _ => {}
    }
}

/// The same bodies under the second layout, with a member of one name in two libraries now and then.
fn shelve(random: &mut Random, bodies: &mut Bodies) {
    let pool = some_libraries(random, &bodies.names);
    let size = keep_at_the_limit(bodies);
    for _ in 0..bodies.names.len() {
        let library = random.pick(&pool).cloned().unwrap_or_default();
        bodies.libraries.push(library);
    }
    if size < 60_000 && random.percent(40) {
        add_twin(random, bodies);
    }
    make_distinct(random, bodies);
    if random.percent(75) {
        write_pairs(random, bodies);
    }
}

/// One to four names of libraries, of members too.
fn some_libraries(random: &mut Random, members: &[Vec<u8>]) -> Vec<Vec<u8>> {
    let mut pool = Vec::new();
    for _ in 0..random.between(1, 4) {
        let member = random.pick(members).cloned();
        pool.push(match member.filter(|_| random.one_in(5)) {
            Some(name) => name,
            None => short_name(random),
        });
    }
    pool
}

/// A deck of about 65,536 bytes stays as long as it is: its longest body gives what the lines take. Gives the bytes of
/// all bodies.
fn keep_at_the_limit(bodies: &mut Bodies) -> usize {
    let size: usize = bodies.bodies.iter().map(Vec::len).sum();
    let more = 8 * bodies.names.len();
    let longest = bodies.bodies.iter_mut().max_by_key(|body| body.len());
    if let Some(body) = longest.filter(|body| size > 65_000 && body.len() > 2 * more) {
        let middle = body.len() / 2;
        body.drain(middle..middle + more);
    }
    size
}

/// Another line with the name of one that is there, somewhere behind the main program. A bare name means whichever
/// comes first.
fn add_twin(random: &mut Random, bodies: &mut Bodies) {
    let Some(name) = random.pick(&bodies.names).cloned() else {
        return;
    };
    let body = match random.below(4) {
        0 => random.pick(&bodies.bodies).cloned().unwrap_or_default(),
        1 => b"%DCL Z_1 CHAR;%Z_1='z';Z_1".to_vec(),
        _ => random.word(&[b"", b"t", b"%;t", b"%", b"%T_:;"]).to_vec(),
    };
    let library = match random.pick(&bodies.libraries).cloned() {
        Some(library) if random.percent(60) => library,
        _ => short_name(random),
    };
    let at = random.between(1, bodies.names.len());
    bodies.names.insert(at, name);
    bodies.bodies.insert(at, body);
    bodies.libraries.insert(at, library);
}

fn short_name(random: &mut Random) -> Vec<u8> {
    let mut name = any_name(random);
    name.truncate(8);
    name
}

/// Of lines with the same pair the later ones get other libraries.
fn make_distinct(random: &mut Random, bodies: &mut Bodies) {
    for line in 1..bodies.names.len() {
        while (0..line).any(|other| same_pair(bodies, line, other)) {
            bodies.libraries[line] = short_name(random);
        }
    }
}

fn same_pair(bodies: &Bodies, one: usize, other: usize) -> bool {
    bodies.names[one] == bodies.names[other] && bodies.libraries[one] == bodies.libraries[other]
}

/// INCLUDE names pairs in all bodies, right and wrong ones; in a deck of the first layout names of members stand for
/// those of libraries.
pub fn write_pairs(random: &mut Random, bodies: &mut Bodies) {
    let libraries = match bodies.libraries.is_empty() {
        true => &bodies.names,
        false => &bodies.libraries,
    };
    let lines: Vec<Line> = (libraries.iter().cloned())
        .zip(bodies.names.iter().cloned())
        .collect();
    for body in &mut bodies.bodies {
        if find(&folded(body), 0, b"INCLUDE").is_some() {
            *body = with_pairs(random, body, &lines);
        }
    }
}

/// Library and name of a line.
type Line = (Vec<u8>, Vec<u8>);

/// A body whose INCLUDEs name pairs in two items of three.
fn with_pairs(random: &mut Random, body: &[u8], lines: &[Line]) -> Vec<u8> {
    let mut listing = false;
    let mut written = Vec::with_capacity(body.len());
    for token in split(body) {
        let word = is_identifier(&token);
        if listing && word && random.percent(66) {
            written.extend(pair(random, &token, lines));
            continue;
        }
        let space = token.starts_with(b"/*") || matches!(&token[..], b" " | b"\n" | b",");
        listing = token.eq_ignore_ascii_case(b"INCLUDE") || listing && (word || space);
        written.extend(token);
    }
    written
}

/// The pair of a line with this name, or another one, perhaps with spaces, or broken.
fn pair(random: &mut Random, name: &[u8], lines: &[Line]) -> Vec<u8> {
    let known = lines
        .iter()
        .filter(|line| line.1.eq_ignore_ascii_case(name));
    let known: Vec<&Line> = known.collect();
    let right = random.pick(&known).map(|line| line.0.clone());
    let any = random.pick(lines).map(|line| line.0.clone());
    let any = any.unwrap_or_default();
    let right = right.unwrap_or_else(|| any.clone());
    let name = name.to_vec();
    let (library, name) = match random.weighted(&[85, 6, 3, 2, 2, 2]) {
        0 => (right, name),
        1 => (any, name),
        2 => (short_name(random), name),
        3 => (b"LONGERNAME".to_vec(), name),
        4 => (name, right),
        _ => (right, b"LONGERNAME".to_vec()),
    };
    let mut tokens = vec![library, b"(".to_vec(), name, b")".to_vec()];
    if random.one_in(60) {
        tokens.remove(random.between(1, 3));
    }
    spaced(random, &tokens)
}

/// Tokens with spaces between them now and then.
fn spaced(random: &mut Random, tokens: &[Vec<u8>]) -> Vec<u8> {
    let loose = random.one_in(4);
    let mut written = Vec::new();
    for (index, token) in tokens.iter().enumerate() {
        if loose && index > 0 && random.percent(50) {
            written.extend_from_slice(random.word(&[b" ", b"\n", b"/*(*/", b" /*,*/ ", b"  "]));
        }
        written.extend_from_slice(token);
    }
    written
}

/// Lines whose names meet in many ways; in the first layout without the last two.
const LINES: &[(&[u8], &[u8])] = &[
    (b"L", b"MAIN"),
    (b"L", b"A"),
    (b"K", b"B"),
    (b"A", b"L"),
    (b"INCLUDE", b"INCLUDE"),
    (b"K", b"A"),
    (b"LIBRARY8", b"MEMBER_8"),
];

/// Items that meet a line of these, if it has libraries.
const KNOWN: &[&[u8]] = &[
    b"A",
    b"B",
    b"L",
    b"L(A)",
    b"K(A)",
    b"K(B)",
    b"A(L)",
    b"INCLUDE",
    b"INCLUDE(INCLUDE)",
    b"LIBRARY8(MEMBER_8)",
    b"MEMBER_8",
    b"L(a)",
    b"l(A)",
];

/// Items that meet none, or the main program.
const UNKNOWN: &[&[u8]] = &[
    b"L(B)",
    b"Z(A)",
    b"NOTHERE",
    b"A(A)",
    b"B(K)",
    b"L(L)",
    b"K",
    b"K(MAIN)",
    b"MAIN",
    b"L(MAIN)",
    b"LIBRARY89(MEMBER_8)",
    b"LIBRARY8(MEMBER_89)",
    b"MEMBER_8(LIBRARY8)",
    b"L(NNNNNNNNNNNNNNNNNNNNNNNNNNNNNNN)",
    b"NNNNNNNNNNNNNNNNNNNNNNNNNNNNNNN(A)",
];

/// What is no item.
const WRONG: &[&[u8]] = &[
    b"",
    b"(A)",
    b"()",
    b"(",
    b")",
    b",",
    b"L(",
    b"L()",
    b"L(A",
    b"L A",
    b"L(A,B)",
    b"L(A)(B)",
    b"L(M(A))",
    b"L((A))",
    b"L(A))",
    b"L(A)A",
    b"L(A B)",
    b"L(1)",
    b"1(A)",
    b"L('A')",
    b"L(`)",
    b"\xECL(A)",
    b"L(A)=1",
    b"L(A):",
    b"=L(A)",
    b":L(A)",
    b"L:(A)",
    b"L(%A)",
    b"L%(A)",
    b"L(A+B)",
    b"L(-A)",
    b"L(A;",
    b"L;(A)",
    b"L(A/*",
    b"L(A'",
    b"L[A]",
    b"L.A",
    b"L(NNNNNNNNNNNNNNNNNNNNNNNNNNNNNNNN)",
    b"NNNNNNNNNNNNNNNNNNNNNNNNNNNNNNNN(A)",
    b"L(A NNNNNNNNNNNNNNNNNNNNNNNNNNNNNNNN)",
    b"NNNNNNNNNNNNNNNNNNNNNNNNNNNNNNNN",
];

/// Where INCLUDE may stand or not; `~` is a list of items.
const STANDS: &[&[u8]] = &[
    b"%INCLUDE ~;t",
    b"%INCLUDE ~;t",
    b"%INCLUDE~;",
    b"%INCLUDE ~",
    b"%INCLUDE ~,~;",
    b"x%INCLUDE ~;y%INCLUDE ~;z",
    b"%I_: J_:INCLUDE ~;",
    b"%INCLUDE:INCLUDE ~;",
    b"%DCL INCLUDE FIXED;%INCLUDE=1;%INCLUDE ~;INCLUDE",
    b"%IF 1 %THEN %INCLUDE ~; %ELSE %INCLUDE ~;t",
    b"%IF 0 %THEN %INCLUDE ~; %ELSE %INCLUDE ~;t",
    b"%DO;x%INCLUDE ~;y%END;",
    b"%DCL I FIXED;%DO I=1 TO 2;%INCLUDE ~;%END;",
    b"%GOTO G;%INCLUDE ~;x%G:INCLUDE ~;y",
    b"%G:;%INCLUDE ~;%IF 0 %THEN %GOTO G;",
    b"%GOTO H;%IF 0 %THEN %DO;%H:INCLUDE ~;h%END;%G:;g",
    b"%INCLUDE ~;%DCL Y CHAR;%Y='y';X Y",
    b"%P:PROC RETURNS(CHAR);INCLUDE ~;RETURN(1);%END;",
];

/// Bodies of the members; `~` is a list of items.
const MEMBERS: &[&[u8]] = &[
    b"",
    b"m",
    b"m",
    b"m n",
    b"%;m",
    b"m%;",
    b"m%;%;n",
    b"m%IF 1 %THEN %;n",
    b"%DCL X CHAR;%X='x';X",
    b"%GOTO G;",
    b"m%INCLUDE ~;n",
    b"%INCLUDE ~;",
    b"%M_:;m",
    b"%INCLUDE ~",
];

/// INCLUDE of right and wrong items, in both layouts.
pub fn forms(random: &mut Random) -> Bodies {
    let libraries = random.percent(75);
    let lines = match libraries {
        true => LINES,
        false => &LINES[..LINES.len() - 2],
    };
    let mut bodies = Bodies::default();
    for (line, (library, name)) in lines.iter().enumerate() {
        let frames = if line == 0 { STANDS } else { MEMBERS };
        bodies.bodies.push(filled(random, frames));
        bodies.names.push(name.to_vec());
        if libraries {
            bodies.libraries.push(library.to_vec());
        }
    }
    if random.one_in(10) {
        bodies.bodies[0] = damage_tokens(random, &bodies.bodies[0]);
    }
    bodies
}

fn filled(random: &mut Random, frames: &[&[u8]]) -> Vec<u8> {
    let mut body = Vec::new();
    for byte in random.word(frames) {
        match byte {
            b'~' => body.extend(items(random)),
            byte => body.push(*byte),
        }
    }
    body
}

/// What stands between two items; once in a while no comma.
const SEPARATORS: &[&[u8]] = &[
    b",", b",", b",", b",", b",", b",", b",", b", ", b" ,\n", b"/*,*/,", b" ", b"",
];

/// One item or a few with commas between.
fn items(random: &mut Random) -> Vec<u8> {
    let mut list = Vec::new();
    for number in 0..random.weighted(&[0, 50, 30, 15, 5]) {
        if number > 0 {
            list.extend_from_slice(random.word(SEPARATORS));
        }
        let item = match random.weighted(&[88, 8, 4]) {
            0 => random.word(KNOWN),
            1 => random.word(UNKNOWN),
            _ => random.word(WRONG),
        };
        list.extend(spaced(random, &split(item)));
    }
    list
}
