//! Whole programs: a main program and members that belong together.

use super::author::{Author, Draft};
use super::random::Random;
use super::world::{Procedure, Variable};

/// A deck before it is put together: names and bodies.
#[derive(Default)]
pub struct Bodies {
    pub names: Vec<Vec<u8>>,
    pub bodies: Vec<Vec<u8>>,
    /// The library of each member; none in a deck of the first layout.
    pub libraries: Vec<Vec<u8>>,
}

/// Random programs that mostly run to their end.
pub fn programs(random: &mut Random) -> Bodies {
    let mut author = Author::new(random);
    let count = author.world.members.len();
    let mut drafts: Vec<Draft> = Vec::new();
    for member in 0..count {
        author.member = member;
        author.budget = author.random.weighted(&[1, 30, 30, 20, 10, 5]) * 4 * author.style.size();
        if member == 0 {
            author.main_program();
        } else if author.prelude == Some(member) {
            author.prelude_member();
        } else {
            author.plain_member();
        }
        drafts.push(std::mem::take(&mut author.draft));
    }
    let bodies = drafts
        .into_iter()
        .map(|draft| author.fulfil(draft))
        .collect();
    Bodies {
        names: author.world.members,
        bodies,
        ..Bodies::default()
    }
}

impl Author<'_> {
    /// Declarations, first values, sentences, and procedures here and there.
    fn main_program(&mut self) {
        if self.random.percent(30) {
            self.text();
        }
        let count = self.world.procedures.len();
        let mut early = 0;
        match self
            .prelude
            .and_then(|member| self.world.members.get(member))
        {
            Some(name) => {
                let include = [b"%INCLUDE ", &name[..], b";"].concat();
                self.put(&include);
            }
            None => {
                self.declare_variables();
                self.declare_entries();
                early = self.random.between(0, count);
                self.write_procedures(early);
            }
        }
        self.first_values();
        for number in early..count {
            let some = self.random.between(1, 4);
            self.sentences(some);
            self.write_procedure(number);
            self.text_behind();
        }
        let most = self.random.between(2, 25);
        self.sentences(most);
    }

    /// A member that declares what the main program uses, and is included first.
    fn prelude_member(&mut self) {
        self.declare_variables();
        self.declare_entries();
    }

    /// The first procedures; nothing has a value yet, so there is no text.
    fn write_procedures(&mut self, count: usize) {
        for number in 0..count {
            self.write_procedure(number);
        }
    }

    /// A member without declarations of its own, so that it can come again.
    fn plain_member(&mut self) {
        if self.random.percent(60) {
            self.text();
        }
        let count = self.random.weighted(&[10, 30, 30, 20, 10]);
        let labels = self.random.one_in(4);
        if labels {
            self.sentences(count);
            return;
        }
        for _ in 0..count {
            self.put(b"%;");
            self.text();
        }
    }

    fn declare_variables(&mut self) {
        let mut variables = self.world.variables.clone();
        let more = self.world.controls.iter().chain([&self.world.fuel]);
        variables.extend(more.map(|name| Variable {
            name: name.clone(),
            fixed: true,
        }));
        if self.mishap() {
            variables.pop();
        }
        while !variables.is_empty() {
            let count = self.random.between(1, 4).min(variables.len());
            let some: Vec<Variable> = variables.drain(..count).collect();
            self.percent();
            self.labels();
            self.declare(&some);
            self.text_if_rare();
        }
    }

    fn text_if_rare(&mut self) {
        if self.random.one_in(5) {
            self.put(b"\n");
        }
    }

    fn declare_entries(&mut self) {
        let entries = self.world.procedures.iter().flat_map(|p| p.entries.clone());
        let mut entries: Vec<Vec<u8>> = entries.collect();
        entries.retain(|_| self.random.percent(85));
        if entries.is_empty() {
            return;
        }
        self.percent();
        self.keyword(&[b"DECLARE", b"DCL"]);
        self.mark(b"(");
        self.names(&entries);
        self.mark(b")");
        self.put(b"ENTRY");
        self.stop();
    }

    /// Nearly every variable gets a value before it is used.
    fn first_values(&mut self) {
        for (index, variable) in self.world.variables.clone().into_iter().enumerate() {
            if self.mishap() {
                continue;
            }
            self.reach = index;
            self.readable = index;
            self.percent();
            self.put(&variable.name);
            self.mark(b"=");
            if variable.fixed {
                self.small_number();
            } else {
                self.characters(1);
            }
            self.stop();
        }
        let mut numbers = self.world.controls.clone();
        numbers.push(self.world.fuel.clone());
        for name in numbers {
            let fuel = self.random.between(0, 6);
            self.percent();
            self.put(&name);
            self.put(format!("={fuel};").as_bytes());
        }
    }

    /// A procedure with its locals, and the text behind it.
    fn write_procedure(&mut self, number: usize) {
        let Some(procedure) = self.world.procedures.get(number).cloned() else {
            return;
        };
        self.percent();
        for entry in &procedure.entries {
            self.put(entry);
            self.mark(b":");
        }
        let parameters = self.procedure_head(&procedure);
        let (open, iterated) = (self.open, self.iterated);
        self.procedure = Some(number);
        self.iterated = 0;
        self.procedure_body(parameters);
        self.procedure = None;
        self.locals.clear();
        (self.open, self.iterated) = (open, iterated);
        self.put(b"%");
        if self.random.one_in(10) {
            let name = self.world.fresh(self.random);
            self.put(&name);
            self.mark(b":");
        }
        self.put(b"END");
        if self.random.percent(40) {
            self.gap();
            self.put(&procedure.entries[0]);
        }
        self.stop();
    }

    /// PROCEDURE, its parameters and RETURNS; gives the parameters.
    fn procedure_head(&mut self, procedure: &Procedure) -> Vec<Variable> {
        self.keyword(&[b"PROCEDURE", b"PROC"]);
        let mut parameters = Vec::new();
        for fixed in &procedure.parameters {
            let name = self.scoped_name();
            parameters.push(Variable {
                name,
                fixed: *fixed,
            });
        }
        if parameters.is_empty() {
            self.gap();
        } else {
            self.mark(b"(");
            self.separated(&parameters, |author, parameter| author.put(&parameter.name));
            self.mark(b")");
        }
        self.put(b"RETURNS");
        self.mark(b"(");
        self.attribute(procedure.returns_fixed);
        self.mark(b")");
        self.stop();
        parameters
    }

    /// A local gets its value in every call, or only in the first one, while a
    /// global variable that is no control variable here says so.
    fn first_local_value(&mut self, name: &[u8]) {
        let flag = self.world.controls.last().cloned().unwrap_or_default();
        let once = self.procedure == Some(0) && self.random.percent(40);
        let value = [name, b"=1;"].concat();
        if !once {
            return self.put(&value);
        }
        let times = [b"IF ", &flag[..], b"<9 THEN DO;", &value, &flag, b"=9;END;"].concat();
        self.put(&times);
        self.put(&[name, b"=", name, b"||1;"].concat());
    }

    /// A name that should be a variable is something else, or nothing.
    fn declare_badly(&mut self, variable: Option<Variable>) {
        let name = variable.map(|variable| variable.name).unwrap_or_default();
        let (before, behind): (&[u8], &[u8]) = match self.random.below(3) {
            _ if name.is_empty() => (b"", b""),
            0 => (b"DCL ", b" BUILTIN;"),
            1 => (b"", b":;"),
            _ => return,
        };
        self.put(before);
        self.put(&name);
        self.put(behind);
    }

    fn procedure_body(&mut self, parameters: Vec<Variable>) {
        let mut locals = Vec::new();
        for _ in 0..self.random.below(3) {
            let name = self.scoped_name();
            let fixed = self.random.percent(50);
            locals.push(Variable { name, fixed });
        }
        let mut declared = parameters.clone();
        declared.extend(locals.iter().cloned());
        if self.mishap() {
            self.declare_badly(declared.pop());
        }
        if !declared.is_empty() {
            self.declare(&declared);
        }
        if self.random.one_in(30) {
            self.put(b"DCL SUBSTR BUILTIN;");
        }
        for local in &locals {
            self.first_local_value(&local.name);
        }
        self.locals = parameters;
        self.locals.append(&mut locals);
        let count = self.random.weighted(&[30, 30, 20, 10, 10]);
        self.sentences(count);
        if !self.mishap() {
            self.return_statement();
        }
    }
}
