//! Decks that need the most stack: what nests in one another, each kind to its limit and all of them at once.
//!
//! An expander that follows the rules by recursion holds a frame for each member, replacement, procedure, nest of an
//! expression and operator that waits. Of these 8 includes, 32 replacement levels and 16 procedures are counted over
//! the whole run and 16 nests in each expression, so the deepest product has 8 includes, then 32 replacements, the last
//! of which calls 16 procedures, each with an expression of 16 nests that calls the next in its innermost place.

use super::{numbered, Bodies, Deck};

pub const DECKS: &[Deck] = &[
    ("stack-parentheses", 0, || deep(PARENTHESES, &Deep::MOST)),
    ("stack-argument-lists", 0, || deep(LISTS, &Deep::MOST)),
    ("stack-argument-lists-17", 15, || {
        deep(LISTS, &LAST_IN_LISTS)
    }),
    ("stack-substr", 0, || deep("SUBSTR(@,1)", &Deep::MOST)),
    ("stack-operators", 0, || deep(OPERATORS, &Deep::MOST)),
    ("stack-operators-and-lists", 0, || {
        deep(OPERATORS_AND_LISTS, &Deep::MOST)
    }),
    ("stack-prefixes", 0, || {
        deep(&format!("{}(@)", "-".repeat(64)), &Deep::MOST)
    }),
    ("stack-procedure-again", 12, || deep(PARENTHESES, &AGAIN)),
    ("stack-procedure-17", 15, || deep(PARENTHESES, &ONE_MORE)),
    ("stack-operators-17", 15, || {
        deep(OPERATORS_AND_LISTS, &ONE_MORE)
    }),
    ("stack-zero-divisor", 10, || {
        let last = ("(@)", "1/0");
        deep(OPERATORS, &Deep { last, ..Deep::MOST })
    }),
    ("stack-return", 0, || statement("RETURN(@);")),
    ("stack-assignment", 0, || statement("A=@;RETURN(1);")),
    ("stack-if", 0, || statement("IF @ THEN;RETURN(1);")),
    ("stack-do", 0, || statement("DO A=@ TO 1;END;RETURN(1);")),
    ("stack-by", 0, || {
        statement("DO A=1 TO 1 BY @;END;RETURN(1);")
    }),
    ("stack-values", 0, || replaced(values)),
    ("stack-procedure-values", 0, || replaced(procedure_values)),
    ("stack-from-a-statement", 0, from_a_statement),
    ("stack-15-and-31", 0, fifteen),
    ("stack-reading", 4, reading),
];

pub const CARD_DECKS: &[Deck] = &[
    ("cards-stack-operators", 0, || deep(OPERATORS, &Deep::MOST)),
    ("cards-stack-procedure-17", 15, || {
        deep(PARENTHESES, &ONE_MORE)
    }),
];

/// A nest of each kind, with `@` for what is in it.
const PARENTHESES: &str = "(@)";
const LISTS: &str = "E(@)";
/// An operator of each binding waits for what is behind it.
const OPERATORS: &str = "1|1&1=''||1+1*(@)";
const OPERATORS_AND_LISTS: &str = "1|1&1=''||1+1*E(@)";

/// What makes up a deck besides the kind of its nests.
struct Deep {
    procedures: usize,
    /// A procedure's statements, with `@` for the expression.
    statement: &'static str,
    /// The nest and the inside of the expression in the last procedure.
    last: (&'static str, &'static str),
    /// Names in text, each in the one before: what declares them, and the outermost.
    replacements: fn(usize) -> (String, String),
    levels: usize,
}

impl Deep {
    const MOST: Deep = Deep {
        procedures: 16,
        statement: "DO A=1 TO @;END;RETURN(1);",
        last: (PARENTHESES, "1"),
        replacements: arguments,
        levels: 32,
    };
}

/// The function of the argument lists is the 17th procedure.
const LAST_IN_LISTS: Deep = Deep {
    last: (LISTS, "1"),
    ..Deep::MOST
};

/// The last procedure calls the first.
const AGAIN: Deep = Deep {
    last: (PARENTHESES, "P1"),
    ..Deep::MOST
};

/// The last procedure calls one that is not running.
const ONE_MORE: Deep = Deep {
    last: (PARENTHESES, "Z"),
    ..Deep::MOST
};

fn nested(nest: &str, inside: &str) -> String {
    (0..16).fold(inside.to_string(), |inner, _| nest.replace('@', &inner))
}

/// A function of one argument, one without, and procedures that call the next.
fn procedures(nest: &str, deep: &Deep) -> String {
    let mut all = "%E:PROC(A)RETURNS(FIXED);DCL A FIXED;RETURN(1);%END;%Z:PROC RETURNS(FIXED);RETURN(1);%END;".to_string();
    for number in 1..=deep.procedures {
        let value = match number == deep.procedures {
            true => nested(deep.last.0, deep.last.1),
            false => nested(nest, &format!("P{}", number + 1)),
        };
        let statements = deep.statement.replace('@', &value);
        all += &format!("%P{number}:PROC RETURNS(FIXED);DCL A FIXED;{statements}%END;");
    }
    all
}

/// 8 include levels, and the last member has this.
fn included(main: String, inside: &str) -> Bodies {
    let mut bodies = vec![main + "%INCLUDE M1;"];
    bodies.extend((2..=8).map(|next| format!("%INCLUDE M{next};")));
    bodies.push(inside.to_string());
    bodies
}

/// The text stands at the start of a group, since what enters a group has its frame then.
fn deep(nest: &str, deep: &Deep) -> Bodies {
    let (declared, outermost) = (deep.replacements)(deep.levels);
    let main = procedures(nest, deep) + "%ACT P1;" + &declared;
    included(main, &format!("%DO;{outermost}%END;"))
}

fn statement(statement: &'static str) -> Bodies {
    let most = Deep {
        statement,
        ..Deep::MOST
    };
    deep(OPERATORS, &most)
}

fn replaced(replacements: fn(usize) -> (String, String)) -> Bodies {
    let most = Deep {
        replacements,
        ..Deep::MOST
    };
    deep(PARENTHESES, &most)
}

/// Calls in the arguments of calls; P1 is the innermost.
fn arguments(levels: usize) -> (String, String) {
    let (open, close) = ("F(".repeat(levels - 1), ")".repeat(levels - 1));
    let function = "%F:PROC(A)RETURNS(CHAR);DCL A CHAR;RETURN(A);%END;%ACT F;";
    (function.to_string(), format!("{open}P1{close}"))
}

/// Variables whose values name the next, the last P1.
fn values(levels: usize) -> (String, String) {
    let mut declared = format!("%DCL ({}) CHAR;", numbered("V", levels - 1));
    for number in 1..levels {
        let next = match number == levels - 1 {
            true => "P1".to_string(),
            false => format!("V{}", number + 1),
        };
        declared += &format!("%V{number}='{next}';");
    }
    (declared, "V1".to_string())
}

/// Procedures without parameters whose values name the next, the last P1.
fn procedure_values(levels: usize) -> (String, String) {
    let mut declared = String::new();
    for number in 1..levels {
        let next = match number == levels - 1 {
            true => "P1".to_string(),
            false => format!("Q{}", number + 1),
        };
        declared += &format!("%Q{number}:PROC RETURNS(CHAR);RETURN('{next}');%END;%ACT Q{number};");
    }
    (declared, "Q1".to_string())
}

/// An expression of a statement outside procedures in place of the replacements.
fn from_a_statement() -> Bodies {
    let main = procedures(OPERATORS, &Deep::MOST) + "%DCL R FIXED;";
    let value = nested(OPERATORS, "P1");
    included(main, &format!("%DO R=1 TO {value};%END;"))
}

/// One less of each: 15 procedures with 16 argument lists each, 31 replacements.
fn fifteen() -> Bodies {
    let less = Deep {
        procedures: 15,
        statement: "RETURN(@);",
        last: (LISTS, "1"),
        levels: 31,
        ..Deep::MOST
    };
    deep(LISTS, &less)
}

/// The eighth member is read with a procedure, 16 groups and alternatives in it, and a 17th parenthesis in these.
fn reading() -> Bodies {
    let open = "DO;".repeat(7) + &"IF 1 THEN DO;".repeat(4);
    let value = nested(OPERATORS_AND_LISTS, "(1)");
    let ends = "END;".repeat(11);
    included(
        String::new(),
        &format!("%P:PROC RETURNS(FIXED);{open}DO A=1 TO {value};END;{ends}RETURN(1);%END;"),
    )
}
