//! Names and what they stand for.

use std::collections::{HashMap, HashSet};
use std::rc::Rc;

use crate::bytes::folded;
use crate::tree::{Active, Declaration, Declared, Name, Path, Procedure, Reading, Type};
use crate::values::Value;

/// What a name stands for.
#[derive(Debug)]
pub enum Denotation {
    Variable(Variable),
    Entry(Entry),
    Label(Label),
    Builtin,
}

#[derive(Debug)]
pub struct Variable {
    pub kind: Type,
    pub value: Option<Value>,
    pub active: Active,
}

/// An entry name: declared ENTRY, or with a procedure, or both.
#[derive(Debug)]
pub struct Entry {
    declared: bool,
    pub body: Option<usize>,
    pub active: Active,
}

#[derive(Clone, Debug)]
pub struct Label {
    pub home: Home,
    pub path: Path,
}

/// The member or the procedure body that something belongs to.
#[derive(Clone, Copy, Debug, PartialEq, Eq)]
pub enum Home {
    Member(usize),
    Procedure(usize),
}

type Scope = HashMap<Name, Denotation>;

/// A procedure body with its own scope, whose variables keep their values.
#[derive(Debug)]
pub struct Body {
    pub procedure: Rc<Procedure>,
    pub running: bool,
    scope: Scope,
}

/// The global names and all procedure bodies of the members entered.
#[derive(Debug, Default)]
pub struct Names {
    global: Scope,
    bodies: Vec<Body>,
}

impl Names {
    /// Declares the names of a member that is entered. The error is the place
    /// of the first name declared, or parameter listed, twice.
    pub fn declare(&mut self, member: usize, reading: &Reading) -> Result<(), usize> {
        let first_body = self.bodies.len();
        self.bodies.extend(reading.procedures.iter().map(new_body));
        let mut parameters = HashSet::new();
        for declaration in &reading.declarations {
            let fits = match (declaration.procedure, &declaration.declared) {
                (Some(number), Declared::Parameter) => {
                    parameters.insert((number, &declaration.name))
                }
                (Some(number), _) => self.declare_local(first_body + number, declaration),
                (None, _) => self.declare_global(member, first_body, declaration),
            };
            if !fits {
                return Err(declaration.at);
            }
        }
        Ok(())
    }

    fn declare_local(&mut self, body: usize, declaration: &Declaration) -> bool {
        let home = Home::Procedure(body);
        let Some(body) = self.bodies.get_mut(body) else {
            return false;
        };
        let denotation = new_denotation(home, 0, declaration);
        insert_new(&mut body.scope, &declaration.name, denotation)
    }

    /// "A name is declared once per scope, except that an ENTRY declaration and
    /// a procedure may share it."
    fn declare_global(&mut self, member: usize, first_body: usize, new: &Declaration) -> bool {
        if let Some(Denotation::Entry(entry)) = self.global.get_mut(&new.name) {
            return match new.declared {
                Declared::Entry => !std::mem::replace(&mut entry.declared, true),
                Declared::Procedure(number) => entry.body.replace(first_body + number).is_none(),
                _ => false,
            };
        }
        let denotation = new_denotation(Home::Member(member), first_body, new);
        insert_new(&mut self.global, &new.name, denotation)
    }

    /// A name as seen from a procedure body, or from outside: local names first.
    pub fn find(&self, body: Option<usize>, name: &[u8]) -> Option<&Denotation> {
        let local = body.and_then(|body| self.bodies.get(body)?.scope.get(name));
        local.or_else(|| self.global.get(name))
    }

    /// The same, to change what is found.
    pub fn find_mut(&mut self, body: Option<usize>, name: &[u8]) -> Option<&mut Denotation> {
        let body = body.and_then(|body| self.bodies.get_mut(body));
        if let Some(local) = body.and_then(|body| body.scope.get_mut(name)) {
            return Some(local);
        }
        self.global.get_mut(name)
    }

    /// A name of global scope, in whatever case a text has it.
    pub fn find_global(&self, written: &[u8]) -> Option<&Denotation> {
        self.global.get(&*folded(written))
    }

    pub fn body(&self, body: usize) -> Option<&Body> {
        self.bodies.get(body)
    }

    pub fn body_mut(&mut self, body: usize) -> Option<&mut Body> {
        self.bodies.get_mut(body)
    }

    /// The declared types of a procedure's parameters; none if one of them is
    /// not declared FIXED or CHARACTER in its procedure.
    pub fn parameter_types(&self, body: usize) -> Option<Vec<Type>> {
        let body = self.bodies.get(body)?;
        let parameters = body.procedure.parameters.iter();
        parameters.map(|name| body.variable_type(name)).collect()
    }
}

impl Body {
    fn variable_type(&self, name: &[u8]) -> Option<Type> {
        match self.scope.get(name)? {
            Denotation::Variable(variable) => Some(variable.kind),
            _ => None,
        }
    }

    /// Gives the parameters the values of the arguments.
    pub fn set_parameters(&mut self, values: Vec<Value>) {
        for (name, value) in self.procedure.parameters.iter().zip(values) {
            if let Some(Denotation::Variable(variable)) = self.scope.get_mut(name) {
                variable.value = Some(value);
            }
        }
    }
}

fn new_body(procedure: &Rc<Procedure>) -> Body {
    Body {
        procedure: Rc::clone(procedure),
        running: false,
        scope: Scope::new(),
    }
}

/// Adds a name to a scope, unless it is there already.
fn insert_new(scope: &mut Scope, name: &Name, denotation: Denotation) -> bool {
    if scope.contains_key(name) {
        return false;
    }
    scope.insert(Rc::clone(name), denotation);
    true
}

fn new_denotation(home: Home, first_body: usize, declaration: &Declaration) -> Denotation {
    match &declaration.declared {
        Declared::Variable(kind) => Denotation::Variable(Variable {
            kind: *kind,
            value: None,
            active: Active::No,
        }),
        Declared::Entry => Denotation::Entry(Entry {
            declared: true,
            body: None,
            active: Active::No,
        }),
        Declared::Procedure(number) => Denotation::Entry(Entry {
            declared: false,
            body: Some(first_body + number),
            active: Active::No,
        }),
        Declared::Label(path) => Denotation::Label(Label {
            home,
            path: Rc::clone(path),
        }),
        Declared::Builtin | Declared::Parameter => Denotation::Builtin,
    }
}
