//! A body that is written up to a limit, and the clause that stands there: any kind of clause, any labels before it, any
//! ending, right or wrong.

use super::super::damage::split;
use super::super::random::Random;

/// Clauses without their first `%`; `~` is a `%` outside procedures and nothing inside.
const CLAUSES: &[&[u8]] = &[
    b";",
    b"X=1;",
    b"X=X||'A';",
    b"DCL V FIXED;",
    b"DCL (V,W) CHAR,Z FIXED;",
    b"DECLARE V ENTRY;",
    b"DCL (V,W) BUILTIN;",
    b"DO;~END;",
    b"DO I=1 TO 2;~;~END;",
    b"DO I=2 BY -1 TO 1;~END;",
    b"DO I=1;~END;",
    b"IF 1 ~THEN ~;",
    b"IF 0 ~THEN ~;~ELSE ~;",
    b"IF 0 ~THEN ~X=1; /**/ ~ELSE ~X=2;",
    b"IF 1 ~THEN ~DO;~END;~ELSE ~X=2;",
    b"IF 1 ~THEN ~IF 0 ~THEN ~;~ELSE ~;",
    b"P:PROC RETURNS(CHAR);RETURN(1);%END;",
    b"P:Q:PROC(A,B)RETURNS(FIXED);DCL (A,B) FIXED;IF 1 THEN;ELSE;DO;END;RETURN(A);%E:END Q;",
    b"PROC RETURNS(CHAR);%END;",
    b"GOTO L1;",
    b"GO TO L1;",
    b"INCLUDE A;",
    b"INCLUDE A,NOTHERE;",
    b"ACT X;",
    b"ACTIVATE X NORESCAN,P RESCAN;",
    b"DEACT X,P;",
    b"RETURN(1);",
    b"END;",
    b"ELSE ~;",
    b"THEN ~;",
    b"X Y;",
    b"1;",
];

/// What begins as an END does, and as an ELSE does.
const ENDS: &[&[u8]] = &[
    b"END;", b"END;", b"END", b"END", b"END ", b"END L1;", b"END K0;", b"END R;", b"END=1;",
    b"END:;",
];
const ELSES: &[&[u8]] = &[
    b"ELSE ~;",
    b"ELSE",
    b"ELSE",
    b"ELSE ",
    b"ELSE;",
    b"ELSE ~",
    b"ELSE ~DO;~END;",
    b"ELSE=1;",
    b"ELSE:;",
];

/// Declarations, most of them of several names and wrong somewhere.
const DECLARES: &[&[u8]] = &[
    b"DCL V FIXED;",
    b"DCL (V,W) CHAR,Z FIXED;",
    b"DCL V CHAR,(W,Z) ENTRY;",
    b"DCL (V,N0,W) CHAR;",
    b"DCL (V,W,Z",
    b"DCL (V,W,",
    b"DCL (V,W)",
    b"DCL (V,W) FOO;",
    b"DCL V",
    b"DCL V,W FIXED;",
    b"DCL V FIXED,W",
    b"DCL V FIXED,W CHAR",
    b"DCL V FIXED W;",
    b"DCL (V,LLLLLLLLLLLLLLLLLLLLLLLLLLLLLLLL,W) CHAR;",
    b"DCL V CHAR,LLLLLLLLLLLLLLLLLLLLLLLLLLLLLLLL FIXED;",
    b"P:PROC(A,B",
    b"P:Q:PROC RETURNS(",
    b"P:PROC(V,V)RETURNS(CHAR);DCL V CHAR;%END;",
    b"P:PROC(V,W)RETURNS(CHAR);V:DCL W CHAR,U FIXED",
    b"P:PROC RETURNS(CHAR);V:W:DCL (U,T) BUILTIN;S:DO;%",
    b"P:PROC RETURNS(CHAR);V:DO;W:END;U:RETURN(1);%T:S:END",
];

/// What may come where a clause breaks off.
const WRONG: &[&[u8]] = &[
    b"", b"", b"", b"", b"%", b"'", b"'A", b"/*", b"/* *", b"?", b")", b"(", b"=", b":", b";",
    b",", b" ", b"\n", b"A", b"1", b"'1'B", b"%END", b"%ELSE", b"%A:", b"%A:END", b"%THEN",
    b" END", b" ELSE", b" A:", b"_", b"\x00", b"%END;", b"%;",
];

/// What can be open around a clause, or stand before it.
#[derive(Clone, Copy, PartialEq)]
enum Opening {
    Group,
    Iterated,
    Then,
    Else,
    Procedure,
    /// An IF with its THEN alternative, behind which ELSE can stand.
    Done,
}

impl Opening {
    /// The sentences that it begins.
    fn sentences(self) -> usize {
        match self {
            Opening::Else | Opening::Done => 2,
            _ => 1,
        }
    }

    /// Whether just one statement may follow it.
    fn is_alternative(self) -> bool {
        matches!(self, Opening::Then | Opening::Else)
    }

    /// Whether nothing may come between it and what follows.
    fn stays(self) -> bool {
        self.is_alternative() || self == Opening::Done
    }

    fn words(self) -> &'static [u8] {
        match self {
            Opening::Group => b"DO;",
            Opening::Iterated => b"DO I=1 TO 1;",
            Opening::Then => b"IF 1 ~THEN ",
            Opening::Else => b"IF 0 ~THEN ~;~ELSE ",
            Opening::Procedure => b"R:PROC RETURNS(CHAR);",
            Opening::Done => b"IF 1 ~THEN ~; ",
        }
    }
}

/// The clause at the limit, and the place that it is made for.
struct Plan {
    place: Option<Opening>,
    clause: &'static [u8],
}

impl Plan {
    fn new(random: &mut Random) -> Plan {
        use Opening::{Done, Group, Iterated, Procedure, Then};
        let (places, clauses): (&[Opening], &[&[u8]]) = match random.weighted(&[34, 14, 8, 14, 30])
        {
            0 => (
                &[Group, Group, Iterated, Procedure, Procedure, Procedure],
                ENDS,
            ),
            1 => (&[Done, Done, Then], ELSES),
            2 => (
                &[Group, Procedure, Procedure, Done, Then],
                &[b"", b"", b"A", b";"],
            ),
            3 => (&[], DECLARES),
            _ => (&[], CLAUSES),
        };
        Plan {
            place: random.pick(places).copied(),
            clause: random.word(clauses),
        }
    }
}

/// What a body has been given so far.
pub struct Body {
    pub bytes: Vec<u8>,
    is_inside: bool,
    closing: Vec<&'static [u8]>,
}

impl Body {
    fn new(bytes: Vec<u8>) -> Body {
        Body {
            bytes,
            is_inside: false,
            closing: Vec::new(),
        }
    }

    /// A body with so many sentences before the clause that comes at its end.
    /// `depth` things are open around it, as far as the sentences reach.
    pub fn up_to(random: &mut Random, before: usize, depth: usize) -> Body {
        let plan = Plan::new(random);
        let mut body = Body::new(Vec::new());
        let mut left = before;
        if left > 0 && random.percent(60) {
            body.bytes.extend_from_slice(b"%DCL X CHAR,I FIXED;");
            left -= 1;
        }
        let openings = openings(random, depth, plan.place, &mut left);
        let gap = gap_among(random, &openings);
        for (number, opening) in openings.iter().enumerate() {
            if number == gap {
                body.fill(random, left);
            }
            body.open(*opening);
        }
        if gap == openings.len() {
            body.fill(random, left);
        }
        body.clause(random, &plan);
        body
    }

    /// Some bytes, so many things that are opened behind them, and a clause.
    pub fn behind(random: &mut Random, bytes: Vec<u8>, depth: usize) -> Body {
        let plan = Plan::new(random);
        let mut body = Body::new(bytes);
        for opening in openings(random, depth, plan.place, &mut { usize::MAX }) {
            body.open(opening);
        }
        body.clause(random, &plan);
        body
    }

    /// Sentences that do little; only one kind of them, so that a body is not too long.
    fn fill(&mut self, random: &mut Random, count: usize) {
        const UNITS: &[(&[u8], usize)] = &[
            (b"~;", 1),
            (b"~;", 1),
            (b"~;", 1),
            (b"~;\n", 1),
            (b"~DO;~END;", 1),
            (b"~IF 0 ~THEN ~;", 2),
            (b"~IF 1 ~THEN ~;~ELSE ~;", 3),
        ];
        let (unit, sentences) = *random.pick(UNITS).unwrap_or(&UNITS[0]);
        for _ in 0..count / sentences {
            self.put(unit);
        }
        for _ in 0..count % sentences {
            self.put(b"~;");
        }
    }

    fn open(&mut self, opening: Opening) {
        self.put(b"~");
        self.put(opening.words());
        match opening {
            Opening::Group | Opening::Iterated if self.is_inside => self.closing.push(b"END;"),
            Opening::Group | Opening::Iterated => self.closing.push(b"%END;"),
            Opening::Procedure => {
                self.closing.push(b"RETURN(1);%END;");
                self.is_inside = true;
            }
            Opening::Then | Opening::Else | Opening::Done => {}
        }
    }

    /// The clause with its labels, whole or broken off; then the body ends, or what is open is closed.
    fn clause(&mut self, random: &mut Random, plan: &Plan) {
        let ends_procedure = self.is_inside && plan.place == Some(Opening::Procedure);
        if random.percent(if ends_procedure { 85 } else { 8 }) {
            self.bytes.push(b'%');
        } else if random.percent(95) {
            self.put(b"~");
        }
        self.bytes.extend(labels(random));
        let is_open = !plan.clause.ends_with(b";");
        let clause = self.written(plan.clause);
        match random.percent(if is_open { 80 } else { 55 }) {
            true => self.bytes.extend(clause),
            false => self.bytes.extend(broken(random, clause)),
        }
        if random.percent(if is_open { 20 } else { 50 }) {
            for closing in std::mem::take(&mut self.closing).iter().rev() {
                self.bytes.extend_from_slice(closing);
            }
            self.is_inside = false;
            for _ in 0..random.below(3) {
                self.put(random.word(&[b"~;", b"A", b"~L1:;", b"~DCL Y CHAR;"]));
            }
        }
    }

    fn put(&mut self, words: &[u8]) {
        let written = self.written(words);
        self.bytes.extend(written);
    }

    fn written(&self, words: &[u8]) -> Vec<u8> {
        let percent: &[u8] = if self.is_inside { b"" } else { b"%" };
        let words: Vec<&[u8]> = words.split(|byte| *byte == b'~').collect();
        words.join(percent)
    }
}

/// Things to be opened, the last of them perhaps known; the sentences for them are taken from those left.
fn openings(
    random: &mut Random,
    depth: usize,
    last: Option<Opening>,
    left: &mut usize,
) -> Vec<Opening> {
    let mut found: Vec<Opening> = Vec::new();
    for number in 0..depth + usize::from(last.is_some()) {
        let wanted = last.filter(|_| number == depth);
        let before = found.last().copied();
        let no_procedure = found.contains(&Opening::Procedure)
            || before.is_some_and(|before| before.is_alternative());
        let opening = match wanted.unwrap_or_else(|| any_opening(random)) {
            Opening::Procedure if no_procedure => Opening::Group,
            opening => opening,
        };
        if *left < opening.sentences() {
            break;
        }
        *left -= opening.sentences();
        found.push(opening);
    }
    found
}

fn any_opening(random: &mut Random) -> Opening {
    match random.weighted(&[4, 1, 3, 2, 2]) {
        0 => Opening::Group,
        1 => Opening::Iterated,
        2 => Opening::Then,
        3 => Opening::Else,
        _ => Opening::Procedure,
    }
}

/// Before which of the openings sentences may stand, or behind all of them.
fn gap_among(random: &mut Random, openings: &[Opening]) -> usize {
    // Not behind a THEN or ELSE, nor between an IF and the clause that may be its ELSE.
    let may = |gap: &usize| *gap == 0 || !openings[*gap - 1].stays();
    let gaps: Vec<usize> = (0..=openings.len()).filter(may).collect();
    random.pick(&gaps).copied().unwrap_or(0)
}

/// No label or several, short and long ones in any order.
fn labels(random: &mut Random) -> Vec<u8> {
    let mut labels = Vec::new();
    // Some that still count, then one that is too long.
    if random.percent(28) {
        labels.extend_from_slice(random.word(&[b"Z:", b"Z:Y:", b"N0:Z:", b"Z: "]));
        labels.extend(b"L".repeat(32));
        labels.push(b':');
    }
    for number in 0..random.weighted(&[45, 20, 18, 12, 5]) {
        match random.weighted(&[9, 2, 1, 6, 2, 1]) {
            0 => labels.extend(format!("K{number}").into_bytes()),
            1 => labels.extend_from_slice(b"L1"),
            2 => labels.extend_from_slice(random.word(&[b"N0", b"N1", b"END", b"ELSE", b"DO"])),
            3 => labels.extend(b"L".repeat(32)),
            4 => labels.extend(b"M".repeat(31)),
            _ => labels.extend(b"N".repeat(33)),
        }
        labels.push(b':');
        labels.extend_from_slice(random.word(&[b"", b"", b"", b" ", b"\n", b"/*:*/"]));
    }
    labels
}

/// A clause broken off behind one of its tokens or bytes, with something else there.
fn broken(random: &mut Random, clause: Vec<u8>) -> Vec<u8> {
    let mut kept = clause.clone();
    if random.percent(70) {
        let mut tokens = split(&clause);
        tokens.truncate(random.below(tokens.len() + 1));
        kept = tokens.concat();
    } else {
        kept.truncate(random.below(clause.len() + 1));
    }
    kept.extend_from_slice(random.word(WRONG));
    kept
}
