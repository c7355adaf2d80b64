//! Random statements, inside and outside procedures.

use super::author::Author;
use super::world::Variable;

impl Author<'_> {
    /// So many sentences, outside procedures each with a text behind it.
    pub fn sentences(&mut self, count: usize) {
        for _ in 0..count {
            if self.budget == 0 {
                return;
            }
            self.sentence();
            self.text_behind();
        }
    }

    /// Text stands behind a sentence outside procedures.
    pub fn text_behind(&mut self) {
        if self.procedure.is_none() && self.random.percent(60) {
            self.text();
        }
    }

    fn sentence(&mut self) {
        self.budget = self.budget.saturating_sub(1);
        if self.procedure.is_none() && self.random.one_in(25) {
            return self.late_declaration();
        }
        self.percent();
        let labels = self.labels();
        self.statement(&labels);
    }

    /// A statement behind its labels.
    fn statement(&mut self, labels: &[Vec<u8>]) {
        let outside = usize::from(self.procedure.is_none());
        let nests = match self.open < self.style.deepest {
            true => self.style.nests,
            false => 0,
        };
        let weights = [
            8,
            30,
            16 * nests,
            10 * nests,
            10 * nests,
            self.style.gotos * nests,
            5 * outside,
            6 * outside,
            4 * outside,
            3 * nests,
            2 * (1 - outside),
        ];
        match self.random.weighted(&weights) {
            0 => self.stop(),
            1 => self.assignment(),
            2 => self.if_statement(),
            3 => self.simple_group(labels),
            4 => self.iterated_group(labels),
            5 => self.guarded_goto(),
            6 => self.include(),
            7 => self.activate(),
            8 => self.deactivate(),
            9 => self.counted_loop(),
            _ => self.return_statement(),
        }
    }

    fn assignment(&mut self) {
        let target = self.assignable();
        self.put(&target.name);
        self.mark(b"=");
        if target.fixed {
            self.readable = usize::MAX;
            self.number(2);
        } else {
            self.expression(3);
        }
        self.stop();
    }

    /// A variable to assign to; what its value may name is set with it.
    fn assignable(&mut self) -> Variable {
        if self.procedure.is_some() && self.random.percent(75) {
            if let Some(local) = self.random.pick(&self.locals) {
                return local.clone();
            }
        }
        let index = self.random.below(self.world.variables.len());
        self.reach = if self.mishap() { 9 } else { index };
        self.readable = self.reach + 1;
        let known = self.world.variables.get(index).cloned();
        known.unwrap_or(Variable {
            name: b"NOTHERE".to_vec(),
            fixed: true,
        })
    }

    fn if_statement(&mut self) {
        self.readable = usize::MAX;
        self.put(b"IF");
        self.gap();
        self.truth(2);
        self.gap();
        self.percent();
        self.put(b"THEN");
        self.alternative();
        if self.random.percent(45) {
            self.space();
            self.percent();
            self.put(b"ELSE");
            self.alternative();
        }
    }

    fn alternative(&mut self) {
        self.gap();
        self.open += 1;
        self.percent();
        let labels = self.labels();
        self.statement(&labels);
        self.open -= 1;
    }

    fn simple_group(&mut self, labels: &[Vec<u8>]) {
        self.put(b"DO");
        self.stop();
        self.group_body(labels);
    }

    fn group_body(&mut self, labels: &[Vec<u8>]) {
        self.open += 1;
        if self.procedure.is_none() && self.random.percent(50) {
            self.text();
        }
        let count = self.random.weighted(&[10, 30, 30, 20, 10]);
        self.sentences(count);
        self.end_clause(labels);
        self.open -= 1;
    }

    /// END, perhaps with labels of its own and a name of what it ends.
    pub fn end_clause(&mut self, labels: &[Vec<u8>]) {
        self.percent();
        while self.random.one_in(7) {
            self.label();
        }
        self.put(b"END");
        if let Some(name) = self.random.pick(labels).cloned() {
            if self.random.percent(50) {
                self.gap();
                self.put(&name);
            }
        }
        self.stop();
    }

    fn iterated_group(&mut self, labels: &[Vec<u8>]) {
        let control = self.control();
        self.readable = usize::MAX;
        self.put(b"DO");
        self.gap();
        self.put(&control);
        self.mark(b"=");
        let start = self.random.between(0, 4);
        self.bound(start);
        match self.random.weighted(&[8, 50, 17, 17, 4, 4]) {
            0 => {}
            1 => self.word_and_bound(b"TO", start + 2),
            2 => {
                let step = self.random.between(1, 3);
                self.word_and_bound(b"BY", step);
                self.word_and_bound(b"TO", start + 3);
            }
            3 => {
                self.put(b" TO -1 BY ");
                let step = self.random.word(&[b"-1", b"-2", b"-(1)", b"'-3'"]);
                self.put(step);
            }
            4 => self.put(b" TO 99 BY 97"),
            _ => self.word_and_bound(b"BY", 2),
        }
        self.stop();
        self.iterated += 1;
        self.group_body(labels);
        self.iterated -= 1;
    }

    /// The control variable for this depth of iterated groups.
    fn control(&mut self) -> Vec<u8> {
        let controls = if self.procedure.is_some() && self.iterated == 0 {
            let local = self.locals.iter().filter(|v| v.fixed);
            local.map(|v| v.name.clone()).collect()
        } else {
            Vec::new()
        };
        if let Some(name) = self.random.pick(&controls) {
            return name.clone();
        }
        let depth = self
            .iterated
            .min(self.world.controls.len().saturating_sub(1));
        self.world.controls.get(depth).cloned().unwrap_or_default()
    }

    fn bound(&mut self, number: usize) {
        match self.random.weighted(&[80, 8, 8, 4]) {
            0 => self.put(number.to_string().as_bytes()),
            1 => self.put(format!("({number}+0)").as_bytes()),
            2 => self.put(format!("'{number}'").as_bytes()),
            _ => self.number(1),
        }
    }

    fn word_and_bound(&mut self, word: &[u8], number: usize) {
        self.gap();
        self.put(word);
        self.gap();
        self.bound(number);
    }

    /// A GOTO that is taken only while there is fuel, so that the run ends.
    fn guarded_goto(&mut self) {
        if !self.has_label() {
            self.label();
        }
        let fuel = self.world.fuel.clone();
        self.put(b"IF");
        self.gap();
        self.put(&fuel);
        self.put(b">0");
        self.space();
        self.percent();
        self.put(if self.procedure.is_some() {
            b" THEN "
        } else {
            b"THEN "
        });
        self.percent();
        self.put(b"DO;");
        self.percent();
        self.put(&fuel);
        self.put(b"=");
        self.put(&fuel);
        self.put(b"-1;");
        self.percent();
        self.goto();
        self.percent();
        self.put(b"END;");
    }

    fn goto(&mut self) {
        self.keyword(&[b"GOTO", b"GO TO", b"GO/**/TO"]);
        self.gap();
        self.wish();
        self.stop();
    }

    /// A label, something, and a way back to the label a few times.
    fn counted_loop(&mut self) {
        let label = self.label();
        self.stop();
        self.text_behind();
        self.sentence();
        self.text_behind();
        self.percent();
        let fuel = self.world.fuel.clone();
        self.put(b"IF ");
        self.put(&fuel);
        self.put(b">2 ");
        self.percent();
        self.put(b"THEN ");
        self.percent();
        self.put(b"DO;");
        self.percent();
        self.put(&fuel);
        self.mark(b"=");
        self.put(&fuel);
        self.put(b"-1;");
        self.percent();
        self.put(b"GOTO ");
        self.put(&label);
        self.stop();
        self.percent();
        self.put(b"END;");
    }

    /// INCLUDE of members that come later in the deck.
    fn include(&mut self) {
        let last = match self.prelude {
            Some(prelude) if !self.random.one_in(40) => prelude,
            _ => self.world.members.len(),
        };
        let later = self.world.members.get(self.member + 1..last).unwrap_or(&[]);
        let mut names = Vec::new();
        for _ in 0..1 + usize::from(self.random.one_in(4)) {
            names.extend(self.random.pick(later).cloned());
        }
        if self.mishap() || self.random.one_in(40) {
            let odd = self.random.word(&[b"NOTHERE", b"LONGERNAME", b"MAIN"]);
            names.push(odd.to_vec());
        }
        if names.is_empty() {
            return self.assignment();
        }
        self.put(b"INCLUDE");
        self.gap();
        self.names(&names);
        self.stop();
    }

    /// Some variables and entry names.
    fn replaceable(&mut self) -> Vec<Vec<u8>> {
        let mut names = Vec::new();
        for _ in 0..self.random.between(1, 2) {
            let variable = self.random.pick(&self.world.variables);
            let procedure = self.random.pick(&self.world.procedures);
            match (self.random.percent(60), variable, procedure) {
                (false, _, Some(procedure)) => {
                    names.extend(self.random.pick(&procedure.entries).cloned());
                }
                (_, Some(variable), _) => names.push(variable.name.clone()),
                _ => {}
            }
        }
        if self.mishap() || names.is_empty() {
            names.push(b"NOTHERE".to_vec());
        }
        names
    }

    fn activate(&mut self) {
        self.keyword(&[b"ACTIVATE", b"ACT"]);
        self.gap();
        let names = self.replaceable();
        self.separated(&names, |author, name| {
            author.put(name);
            let how = author.random.word(&[b"", b"", b" RESCAN", b" NORESCAN"]);
            author.put(how);
        });
        self.stop();
    }

    fn deactivate(&mut self) {
        self.keyword(&[b"DEACTIVATE", b"DEACT"]);
        self.gap();
        let names = self.replaceable();
        self.names(&names);
        self.stop();
    }

    pub fn return_statement(&mut self) {
        self.put(b"RETURN");
        self.mark(b"(");
        self.reach = self.random.below(2);
        self.readable = self.reach;
        let number = self.procedure.unwrap_or(0);
        match self.world.procedures.get(number) {
            Some(procedure) if procedure.returns_fixed => self.number(2),
            _ => self.expression(3),
        }
        self.mark(b")");
        self.stop();
    }

    /// A declaration amid other sentences, and a value for what it declares.
    fn late_declaration(&mut self) {
        if self.member > 0 && !self.random.one_in(10) {
            // A member that declares can be included once only.
            self.percent();
            return self.stop();
        }
        let variable = Variable {
            name: self.world.fresh(self.random),
            fixed: self.random.percent(50),
        };
        self.percent();
        self.labels();
        self.declare(std::slice::from_ref(&variable));
        self.text_behind();
        self.percent();
        self.put(&variable.name);
        self.put(b"=1;");
        if self.open == 0 && self.member == 0 {
            self.world.variables.push(variable);
        }
    }

    /// `DECLARE ... ;` of variables.
    pub fn declare(&mut self, variables: &[Variable]) {
        self.keyword(&[b"DECLARE", b"DCL"]);
        self.gap();
        self.separated(variables, |author, variable| {
            let name = &variable.name;
            if author.random.one_in(4) {
                author.mark(b"(");
                author.put(name);
                author.mark(b")");
            } else {
                author.put(name);
                author.gap();
            }
            author.attribute(variable.fixed);
        });
        self.stop();
    }

    pub fn attribute(&mut self, fixed: bool) {
        if fixed {
            self.put(b"FIXED");
        } else {
            self.keyword(&[b"CHARACTER", b"CHAR"]);
        }
    }
}
