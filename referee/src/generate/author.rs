//! The writer of programs: spaces, names, and the frame of a deck.

use super::random::Random;
use super::world::{Label, Variable, World};

/// A place where a GOTO waits for a label.
pub struct Wish {
    pub at: usize,
    pub member: usize,
    pub procedure: Option<usize>,
}

/// One body while it is written.
#[derive(Default)]
pub struct Draft {
    pub bytes: Vec<u8>,
    pub wishes: Vec<Wish>,
}

/// Writes the programs of one deck.
pub struct Author<'r> {
    pub random: &'r mut Random,
    pub world: World,
    pub draft: Draft,
    /// The member being written.
    pub member: usize,
    /// The procedure being written, and its variables.
    pub procedure: Option<usize>,
    pub locals: Vec<Variable>,
    /// Groups and alternatives open, and iterated groups among them.
    pub open: usize,
    pub iterated: usize,
    /// Sentences that may still be written.
    pub budget: usize,
    /// Something goes wrong once in so many expressions.
    pub mishaps: usize,
    /// Values may name only so many of the variables, so that replacement ends.
    pub reach: usize,
    /// So many of the variables may be read for a value.
    pub readable: usize,
    /// The member, if any, that declares what the main program uses.
    pub prelude: Option<usize>,
    pub style: Style,
}

/// How often some things are written: once in so many.
#[derive(Clone, Copy)]
pub struct Style {
    pub labels: usize,
    pub spaces: usize,
    pub wild_gotos: usize,
    /// The weight of GOTO among the statements.
    pub gotos: usize,
    /// Groups and alternatives are opened only so deep.
    pub deepest: usize,
    /// How much more often a statement that nests is chosen.
    pub nests: usize,
}

impl Style {
    /// A deep nest takes more sentences.
    pub fn size(self) -> usize {
        self.deepest.div_ceil(PLAIN.deepest)
    }
}

const PLAIN: Style = Style {
    labels: 7,
    spaces: 12,
    wild_gotos: 20,
    gotos: 8,
    deepest: 5,
    nests: 1,
};

const LOOSE: Style = Style {
    labels: 5,
    spaces: 3,
    wild_gotos: 20,
    gotos: 8,
    deepest: 5,
    nests: 1,
};

const MAZE: Style = Style {
    labels: 2,
    spaces: 30,
    wild_gotos: 6,
    gotos: 45,
    deepest: 5,
    nests: 1,
};

/// Nests that come near the limit of 16, and now and then past it.
const DEEP: Style = Style {
    labels: 4,
    spaces: 30,
    wild_gotos: 20,
    gotos: 2,
    deepest: 16,
    nests: 12,
};

impl<'r> Author<'r> {
    pub fn new(random: &'r mut Random) -> Author<'r> {
        let world = World::new(random);
        let mishaps = [60, 150, 400, 2_000][random.below(4)];
        let style = [PLAIN, LOOSE, MAZE, DEEP][random.weighted(&[60, 15, 18, 7])];
        let last = world.members.len() - 1;
        let prelude = (last > 0 && random.percent(35)).then_some(last);
        Author {
            random,
            world,
            draft: Draft::default(),
            member: 0,
            procedure: None,
            locals: Vec::new(),
            open: 0,
            iterated: 0,
            budget: 0,
            mishaps,
            reach: 0,
            readable: 0,
            prelude,
            style,
        }
    }

    pub fn put(&mut self, bytes: &[u8]) {
        self.draft.bytes.extend_from_slice(bytes);
    }

    pub fn mishap(&mut self) -> bool {
        self.random.one_in(self.mishaps)
    }

    /// A space where one must be.
    pub fn gap(&mut self) {
        let space: &[u8] = match self.random.weighted(&[88, 4, 4, 2, 2]) {
            0 => b" ",
            1 => b"\n",
            2 => b"  ",
            3 => b"/**/",
            _ => b" /* %'; */\n",
        };
        self.put(space);
    }

    /// A space where one may be.
    pub fn space(&mut self) {
        if self.random.one_in(self.style.spaces) {
            self.gap();
        }
    }

    /// A delimiter, with spaces around it or not.
    pub fn mark(&mut self, mark: &[u8]) {
        self.space();
        self.put(mark);
        self.space();
    }

    /// The `%` that every statement outside procedures has.
    pub fn percent(&mut self) {
        if self.procedure.is_none() {
            self.put(b"%");
            self.space();
        }
    }

    /// The end of a statement.
    pub fn stop(&mut self) {
        self.space();
        self.put(b";");
        if self.procedure.is_some() {
            self.space();
        }
    }

    /// A keyword or its abbreviation.
    pub fn keyword(&mut self, forms: &[&[u8]]) {
        let word = self.random.word(forms);
        self.put(word);
    }

    /// Items with commas between.
    pub fn separated<T>(&mut self, items: &[T], mut write: impl FnMut(&mut Self, &T)) {
        for (index, item) in items.iter().enumerate() {
            if index > 0 {
                self.mark(b",");
            }
            write(self, item);
        }
    }

    /// Names with commas between.
    pub fn names(&mut self, names: &[Vec<u8>]) {
        self.separated(names, |author, name| author.put(name));
    }

    /// Labels before a statement, now and then.
    pub fn labels(&mut self) -> Vec<Vec<u8>> {
        if !self.random.one_in(self.style.labels) {
            return Vec::new();
        }
        let count = 1 + usize::from(self.random.one_in(5));
        (0..count).map(|_| self.label()).collect()
    }

    /// A new label that stands here.
    pub fn label(&mut self) -> Vec<u8> {
        let name = self.scoped_name();
        self.put(&name);
        self.mark(b":");
        self.world.labels.push(Label {
            name: name.clone(),
            member: self.member,
            procedure: self.procedure,
            free: self.iterated == 0,
        });
        name
    }

    /// A new name; in a procedure now and then one that hides a global name.
    pub fn scoped_name(&mut self) -> Vec<u8> {
        if self.procedure.is_some() && self.random.one_in(12) {
            let hidden = self.random.pick(&self.world.variables);
            let hidden = hidden.map(|variable| variable.name.clone());
            let known = |name: &Vec<u8>| self.locals.iter().any(|local| local.name == *name);
            if let Some(name) = hidden.filter(|name| !known(name)) {
                return name;
            }
        }
        self.world.fresh(self.random)
    }

    /// Whether a label is known that a GOTO here may reach.
    pub fn has_label(&self) -> bool {
        let near = |label: &Label| label.member == self.member && label.free;
        let mut labels = self.world.labels.iter();
        labels.any(|label| near(label) && label.procedure == self.procedure)
    }

    /// Leaves a place for a label that is chosen when all are known.
    pub fn wish(&mut self) {
        self.draft.wishes.push(Wish {
            at: self.draft.bytes.len(),
            member: self.member,
            procedure: self.procedure,
        });
    }

    /// A draft with labels at the places that waited for them.
    pub fn fulfil(&mut self, draft: Draft) -> Vec<u8> {
        let mut body = Vec::with_capacity(draft.bytes.len());
        let mut written = 0;
        for wish in &draft.wishes {
            body.extend_from_slice(draft.bytes.get(written..wish.at).unwrap_or(&[]));
            let label = self.choose_label(wish);
            body.extend_from_slice(&label);
            written = wish.at;
        }
        body.extend_from_slice(draft.bytes.get(written..).unwrap_or(&[]));
        body
    }

    /// Mostly a label that GOTO may reach from there.
    fn choose_label(&mut self, wish: &Wish) -> Vec<u8> {
        let wild = self.random.one_in(self.style.wild_gotos);
        let near = |label: &&Label| {
            let home = label.member == wish.member || label.member == 0;
            wild || label.free && home && label.procedure == wish.procedure
        };
        let labels: Vec<&Label> = self.world.labels.iter().filter(near).collect();
        match self.random.pick(&labels) {
            Some(label) => label.name.clone(),
            None => b"NOWHERE".to_vec(),
        }
    }
}
