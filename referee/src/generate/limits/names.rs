//! About 256 names in all, declared in every way, over one or more members that may be included again.

use super::super::programs::Bodies;
use super::super::random::Random;
use super::body::Body;

/// What may come behind the names: declarations that are second ones, or new ones beside them.
const NEAR: &[&str] = &[
    "%N0:;",
    "%DCL N1 CHAR;",
    "%DCL (Y1,N1,Y2) CHAR;",
    "%Y1:N0:Y2:;",
    "%DO;%Y1:N0:END;",
    "%N0:PROC RETURNS(CHAR);RETURN(1);%END;",
    "%Y1:PROC(N0,N0)RETURNS(CHAR);RETURN(1);%END;",
    "%Y1:PROC(A,B)RETURNS(CHAR);DCL A CHAR;B:RETURN(1);%END;",
    "%Y1:PROC RETURNS(CHAR);N0:Y1:;DCL N0 BUILTIN;RETURN(1);%Y2:END;",
];

/// The members to be included, by their names.
const LISTS: &[&[&str]] = &[
    &[],
    &["A"],
    &["A", "A"],
    &["A", "B"],
    &["B", "A"],
    &["A", "B", "A"],
    &["A", "A", "B"],
    &["B", "A", "A"],
];

/// A deck with about 256 names.
pub fn names(random: &mut Random) -> Bodies {
    let mut bodies = vec![String::new(); random.between(1, 3)];
    let mut left = random.weighted(&[1, 1, 4, 7, 2]) + 253;
    let mut next = 0;
    while left > 0 {
        let most = if random.one_in(3) { 8 } else { left };
        let count = random.between(1, left.min(most));
        let member = random.below(bodies.len());
        bodies[member].push_str(&declared(random, next, count));
        next += count;
        left -= count;
    }
    let list = inclusions(random, bodies.len() - 1);
    let last = last_read(&list);
    let mut bodies: Vec<Vec<u8>> = bodies.into_iter().map(String::into_bytes).collect();
    bodies.resize(3, b"%;".to_vec());
    for (member, body) in bodies.iter_mut().enumerate() {
        if random.percent(if member == last { 90 } else { 10 }) {
            *body = ended(random, std::mem::take(body));
        }
    }
    if !list.is_empty() {
        let include = match random.one_in(6) {
            true => format!(
                "%DCL I FIXED;%DO I=1 TO 2;%INCLUDE {};%END;",
                list.join(",")
            ),
            false => format!("%INCLUDE {};", list.join(",")),
        };
        bodies[0].splice(..0, include.into_bytes());
    }
    Bodies {
        names: vec![b"MAIN".to_vec(), b"A".to_vec(), b"B".to_vec()],
        bodies,
        ..Bodies::default()
    }
}

/// So many names from a number on, declared in one way or another.
fn declared(random: &mut Random, next: usize, count: usize) -> String {
    let names: Vec<String> = (next..next + count).map(|n| format!("N{n}")).collect();
    match random.below(8) {
        0 => format!("%DCL ({}) FIXED;", names.join(",")),
        1 => format!("%DCL ({}) ENTRY;", names.join(",")),
        2 => format!("%DCL {} CHAR;", names.join(" FIXED,")),
        3 => format!("%{}:;", names.join(":")),
        4 => format!("%DO;%{}:END;", names.join(": ")),
        5 => format!("%{}:PROC RETURNS(CHAR);RETURN(1);%END;", names.join(":")),
        _ => procedure(random, &names),
    }
}

/// A procedure with the first name, the others being local to it. They may be spelled as others are elsewhere.
fn procedure(random: &mut Random, names: &[String]) -> String {
    let entry = names.first().cloned().unwrap_or_default();
    let mut locals: Vec<String> = names.iter().skip(1).cloned().collect();
    if random.percent(50) {
        locals = (0..locals.len()).map(|n| format!("N{n}")).collect();
    }
    let list = locals.join(",");
    let labels: String = locals.iter().map(|name| format!("{name}:")).collect();
    if locals.is_empty() {
        return format!("%{entry}:PROC RETURNS(CHAR);RETURN(1);%END;");
    }
    match random.below(6) {
        0 => format!("%{entry}:PROC RETURNS(CHAR);DCL ({list}) CHAR;RETURN(1);%END;"),
        1 => format!("%{entry}:PROC RETURNS(CHAR);DCL ({list}) BUILTIN;RETURN(1);%END;"),
        2 => format!("%{entry}:PROC({list})RETURNS(CHAR);DCL ({list}) FIXED;RETURN(1);%END;"),
        3 => format!("%{entry}:PROC({list},Y)RETURNS(CHAR);{labels};RETURN(1);%END;"),
        4 => format!("%{entry}:PROC RETURNS(CHAR);DO;{labels}END;RETURN(1);%END;"),
        _ => format!("%{entry}:PROC RETURNS(CHAR);RETURN(1);%{labels}END;"),
    }
}

/// Members to be included, so many different ones among them.
fn inclusions(random: &mut Random, members: usize) -> Vec<&'static str> {
    let fits = |list: &&&[&str]| {
        list.contains(&"A") == (members > 0) && (members < 2 || list.contains(&"B"))
    };
    let lists: Vec<&[&str]> = LISTS.iter().filter(fits).copied().collect();
    random
        .pick(&lists)
        .map(|list| list.to_vec())
        .unwrap_or_default()
}

/// The member that is read last, as far as it is read for the first time; 0 is the main program.
fn last_read(list: &[&str]) -> usize {
    match (list.contains(&"A"), list.contains(&"B"), list.first()) {
        (true, true, Some(&"B")) | (true, false, _) => 1,
        (_, true, _) => 2,
        _ => 0,
    }
}

/// A body with what comes behind its names.
fn ended(random: &mut Random, mut body: Vec<u8>) -> Vec<u8> {
    if random.one_in(6) {
        body.extend_from_slice(NEAR[random.below(NEAR.len())].as_bytes());
    }
    let depth = random.weighted(&[6, 2, 1]);
    Body::behind(random, body, depth).bytes
}
