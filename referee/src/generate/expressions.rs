//! Random expressions that mostly have a value.

use super::author::Author;
use super::world::Procedure;

const COMPARISONS: &[&[u8]] = &[b"=", b"^=", b"<", b">", b"<=", b">=", b"^<", b"^>"];

/// Expressions that are refused when they are evaluated, or nearly so.
const MISHAPS: &[&[u8]] = &[
    b"1/0",
    b"99999+1",
    b"-99999-1",
    b"'X'+1",
    b"'1 2'*1",
    b"NOTHERE",
    b"NOTHERE(1)",
    b"^'2'",
    b"SUBSTR('AB',4)",
    b"SUBSTR('AB',0,1)",
    b"SUBSTR('AB',1,3)",
    b"SUBSTR('AB')",
    b"SUBSTR",
    b"100000",
    b"'+'|1",
    b"1000*1000",
    b"-'99999'-'1'",
    b"'11111111111111111'B+0",
    b"SUBSTR(123,2,-1)",
    b"'A'<1",
];

impl Author<'_> {
    /// Any value.
    pub fn expression(&mut self, depth: usize) {
        match self.random.weighted(&[40, 45, 15]) {
            0 => self.number(depth),
            1 => self.characters(depth),
            _ => self.truth(depth),
        }
    }

    /// An expression in parentheses.
    fn parenthesized(&mut self, write: impl FnOnce(&mut Self)) {
        self.put(b"(");
        self.space();
        write(self);
        self.space();
        self.put(b")");
    }

    /// A value that converts to FIXED.
    pub fn number(&mut self, depth: usize) {
        if self.mishap() {
            let wrong = self.random.word(MISHAPS);
            self.put(wrong);
            return;
        }
        let kinds = if depth == 0 { 3 } else { 9 };
        let weights = [30, 30, 8, 14, 6, 5, 8, 4, 4];
        match self.random.weighted(&weights[..kinds]) {
            0 => self.small_number(),
            1 => self.fixed_variable(),
            2 => {
                let odd = self
                    .random
                    .word(&[b"'12 '", b"' -3'", b"''", b"'101'B", b"''B", b"007"]);
                self.put(odd);
            }
            3 => self.sum(depth - 1),
            4 => {
                self.parenthesized(|author| author.number(depth - 1));
                self.mark(b"/");
                let divisor = self
                    .random
                    .word(&[b"1", b"2", b"3", b"-2", b"'7'", b"'11'B"]);
                self.put(divisor);
            }
            5 => {
                let sign = self.random.word(&[b"-", b"+", b"- -"]);
                self.put(sign);
                self.parenthesized(|author| author.number(depth - 1));
            }
            6 => self.call(true, depth),
            7 => self.parenthesized(|author| author.truth(depth - 1)),
            _ => self.digits(),
        }
    }

    fn sum(&mut self, depth: usize) {
        self.number(depth);
        let operator = self.random.word(&[b"+", b"-", b"*"]);
        self.mark(operator);
        self.number(depth);
    }

    /// Digits out of digits by SUBSTR.
    fn digits(&mut self) {
        self.put(b"SUBSTR('12345'||");
        self.small_number();
        let ends: &[&[u8]] = &[b",2,3)", b",13)", b",6)", b",1,0)", b",5,1)"];
        let end = self.random.word(ends);
        self.put(end);
    }

    pub fn small_number(&mut self) {
        let number = match self.random.weighted(&[70, 20, 8, 2]) {
            0 => self.random.below(10),
            1 => self.random.below(120),
            2 => self.random.below(3_000),
            _ => self.random.between(99_990, 99_999),
        };
        self.put(number.to_string().as_bytes());
    }

    /// A FIXED variable that has a value here, or a number.
    fn fixed_variable(&mut self) {
        let local: Vec<_> = self.locals.iter().filter(|v| v.fixed).collect();
        let near = self.world.variables.iter().take(self.readable);
        let global: Vec<_> = near.filter(|v| v.fixed).collect();
        let from = if self.random.percent(60) {
            local
        } else {
            global
        };
        match self.random.pick(&from) {
            Some(variable) => {
                let name = variable.name.clone();
                self.put(&name);
            }
            None => self.small_number(),
        }
    }

    /// A call of a procedure that comes before this one, so that none recurs.
    fn call(&mut self, fixed: bool, depth: usize) {
        let callable = self.procedure.unwrap_or(self.world.procedures.len());
        let known = self.world.procedures.get(..callable).unwrap_or(&[]);
        let fitting: Vec<&Procedure> = known
            .iter()
            .filter(|procedure| !fixed || procedure.returns_fixed)
            .collect();
        let Some(called) = self.random.pick(&fitting).copied().cloned() else {
            return self.small_number();
        };
        let entry = self.random.below(called.entries.len());
        self.put(&called.entries[entry]);
        let mut parameters = called.parameters;
        if self.mishap() {
            parameters.push(false);
        }
        if parameters.is_empty() {
            return;
        }
        self.mark(b"(");
        self.separated(&parameters, |author, fixed| {
            if *fixed {
                author.number(depth.saturating_sub(1));
            } else {
                author.expression(depth.saturating_sub(1));
            }
        });
        self.mark(b")");
    }

    /// A value made of places, mostly CHARACTER.
    pub fn characters(&mut self, depth: usize) {
        if self.mishap() {
            let wrong = self.random.word(MISHAPS);
            self.put(wrong);
            return;
        }
        let kinds = if depth == 0 { 3 } else { 8 };
        let weights = [35, 25, 5, 18, 5, 6, 3, 3];
        match self.random.weighted(&weights[..kinds]) {
            0 => self.string(),
            1 => self.character_variable(),
            2 => self.bits(),
            3 => {
                self.operand_of_places(depth - 1);
                self.mark(b"||");
                self.operand_of_places(depth - 1);
            }
            4 => {
                self.put(b"SUBSTR(");
                self.operand_of_places(depth - 1);
                let rest = self
                    .random
                    .word(&[b"||'ABC',2,2)", b"||123,1,3)", b"||'',1)"]);
                self.put(rest);
            }
            5 => self.call(false, depth),
            6 => self.parenthesized(|author| author.characters(depth - 1)),
            _ => {
                self.bits();
                let operator = self.random.word(&[b"&", b"|", b"||"]);
                self.mark(operator);
                self.bits();
            }
        }
    }

    fn operand_of_places(&mut self, depth: usize) {
        match self.random.weighted(&[40, 30, 15, 15]) {
            0 => self.string(),
            1 => self.character_variable(),
            2 => self.small_number(),
            _ => self.parenthesized(|author| author.expression(depth)),
        }
    }

    /// A CHARACTER variable that may be read here, or a string.
    fn character_variable(&mut self) {
        let local: Vec<_> = self.locals.iter().filter(|v| !v.fixed).collect();
        let near = self.world.variables.iter().take(self.readable);
        let global: Vec<_> = near.filter(|v| !v.fixed).collect();
        let from = if self.random.percent(60) {
            local
        } else {
            global
        };
        match self.random.pick(&from) {
            Some(variable) => {
                let name = variable.name.clone();
                self.put(&name);
            }
            None => self.string(),
        }
    }

    fn bits(&mut self) {
        self.put(b"'");
        for _ in 0..self.random.below(6) {
            let digit = self.random.word(&[b"0", b"1"]);
            self.put(digit);
        }
        self.put(b"'B");
    }

    /// A string constant, in which quotes are doubled.
    fn string(&mut self) {
        self.put(b"'");
        for _ in 0..self.random.weighted(&[10, 40, 25, 15, 10]) {
            self.string_piece();
        }
        self.put(b"'");
    }

    fn string_piece(&mut self) {
        match self.random.weighted(&[30, 22, 14, 10, 4, 4, 4, 6, 4, 2]) {
            0 => {
                let letters = self.random.word(&[b"x", b"yz", b"low", b"QQ", b"Z9"]);
                self.put(letters);
            }
            1 => self.mentioned_name(),
            2 => self.small_number(),
            3 => self.put(b" "),
            4 => self.put(b"''"),
            5 => self.put(b"''s''"),
            6 => self.put(b"/*c*/"),
            7 => {
                let sign = self
                    .random
                    .word(&[b"+", b"(", b")", b",", b"_", b";", b"="]);
                self.put(sign);
            }
            8 => {
                let odd = self
                    .random
                    .word(&[b"\n", b"%", b"/*", b"?", b"\x00", b"\xFF", b"-"]);
                self.put(odd);
            }
            _ => self.entry_name(),
        }
    }

    /// The name of a variable within reach.
    fn mentioned_name(&mut self) {
        let index = self.random.below(self.reach);
        match self.world.variables.get(index).filter(|_| self.reach > 0) {
            Some(variable) => {
                let name = variable.name.clone();
                self.put(&name);
            }
            None => self.put(b"NONE"),
        }
    }

    fn entry_name(&mut self) {
        let procedure = self.random.pick(&self.world.procedures);
        let name = procedure.and_then(|procedure| procedure.entries.first());
        let name = name.cloned().unwrap_or_default();
        self.put(&name);
    }

    /// A value that converts to BIT.
    pub fn truth(&mut self, depth: usize) {
        if depth == 0 {
            return self.bits();
        }
        match self.random.weighted(&[40, 18, 12, 12, 8, 6, 4]) {
            0 => {
                self.number(depth - 1);
                let operator = self.random.word(COMPARISONS);
                self.mark(operator);
                self.number(depth - 1);
            }
            1 => {
                self.character_variable();
                let operator = self.random.word(COMPARISONS);
                self.mark(operator);
                self.string();
            }
            2 => {
                self.parenthesized(|author| author.truth(depth - 1));
                let operator = self.random.word(&[b"&", b"|"]);
                self.mark(operator);
                self.parenthesized(|author| author.truth(depth - 1));
            }
            3 => {
                self.put(b"^");
                self.parenthesized(|author| author.truth(depth - 1));
            }
            4 => self.bits(),
            5 => self.number(depth - 1),
            _ => {
                let simple = self.random.word(&[b"'1'", b"''", b"'0110'", b"1", b"0"]);
                self.put(simple);
            }
        }
    }
}
