//! What the programs of one generated deck share: names and their kinds.

use std::collections::HashSet;

use super::random::Random;

/// Words of the language; as names they must be as good as any other.
pub const KEYWORDS: &[&[u8]] = &[
    b"ACTIVATE",
    b"ACT",
    b"BUILTIN",
    b"BY",
    b"CHARACTER",
    b"CHAR",
    b"DEACTIVATE",
    b"DEACT",
    b"DECLARE",
    b"DCL",
    b"DO",
    b"ELSE",
    b"END",
    b"ENTRY",
    b"FIXED",
    b"GO",
    b"GOTO",
    b"IF",
    b"INCLUDE",
    b"NORESCAN",
    b"PROCEDURE",
    b"PROC",
    b"RESCAN",
    b"RETURN",
    b"RETURNS",
    b"THEN",
    b"TO",
    b"B",
    b"MAIN",
    b"SUBSTR",
];

/// A variable of a program or procedure.
#[derive(Clone)]
pub struct Variable {
    pub name: Vec<u8>,
    pub fixed: bool,
}

/// A procedure: its entry names, whether each parameter is FIXED, and whether
/// its value is.
#[derive(Clone)]
pub struct Procedure {
    pub entries: Vec<Vec<u8>>,
    pub parameters: Vec<bool>,
    pub returns_fixed: bool,
}

/// A label, where it is, and whether no iterated group is around it.
pub struct Label {
    pub name: Vec<u8>,
    pub member: usize,
    pub procedure: Option<usize>,
    pub free: bool,
}

/// The names of a deck.
pub struct World {
    pub variables: Vec<Variable>,
    /// FIXED variables that control iterated groups.
    pub controls: Vec<Vec<u8>>,
    /// A FIXED variable that GOTO counts down.
    pub fuel: Vec<u8>,
    pub procedures: Vec<Procedure>,
    pub labels: Vec<Label>,
    /// Names of the members of the deck, the main program first.
    pub members: Vec<Vec<u8>>,
    used: HashSet<Vec<u8>>,
}

impl World {
    pub fn new(random: &mut Random) -> World {
        let mut world = World {
            variables: Vec::new(),
            controls: Vec::new(),
            fuel: Vec::new(),
            procedures: Vec::new(),
            labels: Vec::new(),
            members: Vec::new(),
            used: HashSet::new(),
        };
        for _ in 0..random.between(1, 7) {
            let name = world.fresh(random);
            let fixed = random.percent(40);
            world.variables.push(Variable { name, fixed });
        }
        for _ in 0..3 {
            let name = world.fresh(random);
            world.controls.push(name);
        }
        world.fuel = world.fresh(random);
        for _ in 0..random.weighted(&[25, 30, 25, 15, 5]) {
            let procedure = world.new_procedure(random);
            world.procedures.push(procedure);
        }
        world.members = member_names(random);
        world
    }

    fn new_procedure(&mut self, random: &mut Random) -> Procedure {
        let entries = 1 + usize::from(random.one_in(6));
        let parameters = random.weighted(&[30, 35, 20, 10, 5]);
        Procedure {
            entries: (0..entries).map(|_| self.fresh(random)).collect(),
            parameters: (0..parameters).map(|_| random.percent(45)).collect(),
            returns_fixed: random.percent(40),
        }
    }

    /// A name that is not used yet; once in a long while one that is.
    pub fn fresh(&mut self, random: &mut Random) -> Vec<u8> {
        if random.one_in(1_500) {
            if let Some(name) = self.used.iter().min() {
                return name.clone();
            }
        }
        loop {
            let name = any_name(random);
            if self.used.insert(name.clone()) {
                return name;
            }
        }
    }
}

/// Names of 1 to 5 members, mostly short; distinct.
fn member_names(random: &mut Random) -> Vec<Vec<u8>> {
    let mut names = vec![b"MAIN".to_vec()];
    let count = random.weighted(&[0, 40, 25, 20, 10, 5]);
    while names.len() < count {
        let mut name = any_name(random);
        name.truncate(8);
        if !names.contains(&name) {
            names.push(name);
        }
    }
    names
}

/// Some name: a letter, a letter and more, a keyword, or a long one.
pub fn any_name(random: &mut Random) -> Vec<u8> {
    const LETTERS: &[u8] = b"ABCDEFGHIJKLMNOPQRSTUVWXYZ$@#";
    const MORE: &[u8] = b"ABCXYZ0189_$@#";
    let first = LETTERS[random.below(LETTERS.len())];
    let length = match random.weighted(&[30, 40, 15, 14, 1]) {
        0 => 0,
        1 => 1,
        2 => random.between(2, 7),
        3 => {
            let word = random.word(KEYWORDS);
            return word.to_vec();
        }
        _ => random.between(28, 30),
    };
    let mut name = vec![first];
    name.extend((0..length).map(|_| MORE[random.below(MORE.len())]));
    name
}
