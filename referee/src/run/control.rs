//! The flow of control: blocks, sentences, alternatives, groups and GOTO.

use super::{Flow, Frame, Jump, Run};
use crate::names::{Denotation, Home};
use crate::refusal::{Outcome, Refusal};
use crate::tree::{
    Action, Active, Block, Condition, Expression, Iteration, Name, Part, Path, Sentence, Type,
    ELSE, THEN,
};
use crate::values::{Fixed, Value};

/// BY and TO of an iterated group, once evaluated.
struct Bounds {
    by: Option<Fixed>,
    to: Option<Fixed>,
}

impl Bounds {
    /// "it ends over TO, under TO if BY is negative, never without TO."
    fn ends_at(&self, value: Fixed) -> bool {
        let falling = self.by.is_some_and(|by| by < Fixed::ZERO);
        match self.to {
            None => false,
            Some(to) if falling => value < to,
            Some(to) => value > to,
        }
    }

    /// The step between passes: none with neither BY nor TO, else 1 if absent.
    fn step(&self) -> Option<Fixed> {
        self.by.or(self.to.map(|_| Fixed::ONE))
    }
}

impl Run<'_> {
    /// Runs a block whose indices stand at `depth` in a path, from its start or
    /// from a target inside it.
    pub(super) fn block(
        &mut self,
        block: &Block,
        depth: usize,
        target: Option<Path>,
    ) -> Outcome<Flow> {
        let mut target = target;
        let mut index = turn(&target, depth).unwrap_or(0);
        while let Some(part) = block.parts.get(index) {
            self.reach(depth, index);
            match self.part(part, depth + 1, target.take())? {
                Flow::On => index += 1,
                Flow::Jump(jump) if self.lands(&jump, depth) => {
                    target = Some(jump.path);
                    index = turn(&target, depth).unwrap_or(0);
                }
                flow => return Ok(flow),
            }
        }
        Ok(Flow::On)
    }

    /// A sentence, then one blank and its text.
    fn part(&mut self, part: &Part, depth: usize, target: Option<Path>) -> Outcome<Flow> {
        if let Some(sentence) = &part.sentence {
            let flow = self.begin_or_enter(sentence, depth, target)?;
            if !matches!(flow, Flow::On) {
                return Ok(flow);
            }
        }
        if let Some(text) = part.text {
            self.text(text)?;
        }
        Ok(Flow::On)
    }

    /// Begins a sentence, or goes to a target deeper inside it.
    fn begin_or_enter(
        &mut self,
        sentence: &Sentence,
        depth: usize,
        target: Option<Path>,
    ) -> Outcome<Flow> {
        match target {
            Some(path) if path.len() > depth => self.enter_sentence(sentence, depth, path),
            _ => self.begin(sentence, depth),
        }
    }

    /// "GOTO ... may enter an alternative or a simple group."
    fn enter_sentence(&mut self, sentence: &Sentence, depth: usize, path: Path) -> Outcome<Flow> {
        match &sentence.action {
            Action::If(condition) => {
                let index = path.get(depth).copied().unwrap_or(THEN);
                self.alternatives(condition, depth, index, Some(path))
            }
            Action::Group {
                iteration: None,
                body,
            } => self.block(body, depth, Some(path)),
            _ => Err(Refusal::Goto),
        }
    }

    /// One step, then the sentence.
    fn begin(&mut self, sentence: &Sentence, depth: usize) -> Outcome<Flow> {
        self.stand_at(sentence.at);
        self.meter.charge()?;
        match &sentence.action {
            Action::Null | Action::Procedure => {}
            Action::Declare(names) => self.activate_declared(names),
            Action::Assign { target, source } => self.assign(target, source)?,
            Action::Activate(activations) => self.activate(activations)?,
            Action::If(condition) => return self.condition(condition, depth),
            Action::Group { iteration, body } => {
                return match iteration {
                    None => self.block(body, depth, None),
                    Some(iteration) => self.iterate(sentence.at, iteration, body, depth),
                }
            }
            Action::Goto(name) => return self.goto(name),
            Action::Include(names) => return self.include(names),
            Action::Return(source) => return self.return_value(source).map(Flow::Return),
        }
        Ok(Flow::On)
    }

    /// "IF holds when any bit is 1 (000, 9.5.1)."
    fn condition(&mut self, condition: &Condition, depth: usize) -> Outcome<Flow> {
        let value = self.evaluate(&condition.test)?;
        let bits = self.bits(value)?;
        self.waiting.take(bits.len());
        let index = if bits.contains(&b'1') { THEN } else { ELSE };
        self.alternatives(condition, depth, index, None)
    }

    /// Runs one alternative, and others as GOTO leads from one to another.
    fn alternatives(
        &mut self,
        condition: &Condition,
        depth: usize,
        first: usize,
        target: Option<Path>,
    ) -> Outcome<Flow> {
        let mut target = target;
        let mut index = first;
        // A missing ELSE costs nothing (reading 20).
        while let Some(sentence) = condition.alternative(index) {
            self.reach(depth, index);
            match self.begin_or_enter(sentence, depth + 1, target.take())? {
                Flow::Jump(jump) if self.lands(&jump, depth) => {
                    target = Some(jump.path);
                    index = turn(&target, depth).unwrap_or(THEN);
                }
                flow => return Ok(flow),
            }
        }
        Ok(Flow::On)
    }

    /// "DO evaluates and converts start, then BY and TO as written, once each and
    /// each before the next, and then sets the variable."
    fn iterate(
        &mut self,
        at: usize,
        iteration: &Iteration,
        body: &Block,
        depth: usize,
    ) -> Outcome<Flow> {
        let variable = &iteration.variable;
        if self.variable_type(variable)? != Type::Fixed {
            return Err(Refusal::Name);
        }
        let start = self.evaluate_fixed(&iteration.start)?;
        let bounds = self.bounds(iteration)?;
        self.set(variable, Value::Fixed(start))?;
        let mut value = start;
        while !bounds.ends_at(value) {
            let flow = self.block(body, depth, None)?;
            if !matches!(flow, Flow::On) {
                return Ok(flow);
            }
            let Some(step) = bounds.step() else {
                break;
            };
            // Reading 19: stepped, then the step of the test, then tested.
            self.stand_at(at);
            value = self.value_of(variable)?.to_fixed()?.plus(step)?;
            self.set(variable, Value::Fixed(value))?;
            self.meter.charge()?;
        }
        Ok(Flow::On)
    }

    fn bounds(&mut self, iteration: &Iteration) -> Outcome<Bounds> {
        let (by, to);
        if iteration.by_first {
            by = self.optional_fixed(&iteration.by)?;
            to = self.optional_fixed(&iteration.to)?;
        } else {
            to = self.optional_fixed(&iteration.to)?;
            by = self.optional_fixed(&iteration.by)?;
        }
        Ok(Bounds { by, to })
    }

    fn optional_fixed(&mut self, expression: &Option<Expression>) -> Outcome<Option<Fixed>> {
        match expression {
            None => Ok(None),
            Some(expression) => self.evaluate_fixed(expression).map(Some),
        }
    }

    /// "a target is tested before its expression".
    fn assign(&mut self, target: &Name, source: &Expression) -> Outcome<()> {
        let kind = self.variable_type(target)?;
        let value = self.evaluate(source)?;
        let value = self.convert(value, kind)?;
        self.waiting.take(value.size());
        self.set(target, value)
    }

    fn variable_type(&self, name: &Name) -> Outcome<Type> {
        match self.find(name) {
            Some(Denotation::Variable(variable)) => Ok(variable.kind),
            _ => Err(Refusal::Name),
        }
    }

    fn value_of(&self, name: &Name) -> Outcome<Value> {
        match self.find(name) {
            Some(Denotation::Variable(variable)) => variable.value.clone().ok_or(Refusal::NoValue),
            _ => Err(Refusal::Name),
        }
    }

    fn set(&mut self, name: &Name, value: Value) -> Outcome<()> {
        match self.find_mut(name) {
            Some(Denotation::Variable(variable)) => {
                variable.value = Some(value);
                Ok(())
            }
            _ => Err(Refusal::Name),
        }
    }

    /// "A declaration activates its variables and entries with RESCAN"; one in a
    /// procedure activates nothing.
    fn activate_declared(&mut self, names: &[Name]) {
        if self.body().is_some() {
            return;
        }
        for name in names {
            if let Some(active) = self.activation(name) {
                *active = Active::Rescan;
            }
        }
    }

    fn activate(&mut self, activations: &[(Name, Active)]) -> Outcome<()> {
        for (name, active) in activations {
            *self.activation(name).ok_or(Refusal::Name)? = *active;
        }
        Ok(())
    }

    /// The activation of a global variable or entry name.
    fn activation(&mut self, name: &Name) -> Option<&mut Active> {
        match self.names.find_mut(None, name)? {
            Denotation::Variable(variable) => Some(&mut variable.active),
            Denotation::Entry(entry) => Some(&mut entry.active),
            Denotation::Label(_) | Denotation::Builtin => None,
        }
    }

    /// "GOTO: kind first (6), then 13" (reading 21).
    fn goto(&mut self, name: &Name) -> Outcome<Flow> {
        let label = match self.find(name) {
            Some(Denotation::Label(label)) => label.clone(),
            _ => return Err(Refusal::Name),
        };
        let frame = self.frame_of(label.home).ok_or(Refusal::Goto)?;
        let from = self.frames.get(frame).ok_or(Refusal::Goto)?;
        let depth = from.common_depth(&label.path);
        Ok(Flow::Jump(Jump {
            frame,
            depth,
            path: label.path,
        }))
    }

    /// The running frame of a label; GOTO may not leave a procedure.
    fn frame_of(&self, home: Home) -> Option<usize> {
        if self.body().is_some() {
            let last = self.frames.len().checked_sub(1)?;
            return (self.frames.get(last)?.home == home).then_some(last);
        }
        self.frames.iter().rposition(|frame| frame.home == home)
    }

    /// Notes the part or alternative that is reached in the running frame.
    fn reach(&mut self, depth: usize, index: usize) {
        if let Some(frame) = self.frames.last_mut() {
            frame.path.truncate(depth);
            frame.path.push(index);
        }
    }

    /// Whether a GOTO goes on in the block or alternatives at this depth.
    fn lands(&self, jump: &Jump, depth: usize) -> bool {
        self.frames.len() == jump.frame + 1 && jump.depth == depth
    }
}

impl Frame {
    /// The depth of the innermost block or alternatives that hold both the
    /// statement reached and the target (000, 9.5.2).
    fn common_depth(&self, target: &[usize]) -> usize {
        let pairs = self.path.iter().zip(target);
        let common = pairs.take_while(|(here, there)| here == there).count();
        let deepest = self.path.len().min(target.len()).saturating_sub(1);
        common.min(deepest)
    }
}

/// The index at this depth of a target's path.
fn turn(target: &Option<Path>, depth: usize) -> Option<usize> {
    target.as_ref()?.get(depth).copied()
}
