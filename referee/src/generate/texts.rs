//! Random text, with names to be replaced and argument lists.

use super::author::Author;
use super::world::any_name;

impl Author<'_> {
    /// Some tokens of text.
    pub fn text(&mut self) {
        for _ in 0..self.random.weighted(&[5, 25, 25, 20, 10, 5, 5, 5]) {
            self.text_token();
        }
    }

    fn text_token(&mut self) {
        match self.random.weighted(&[26, 12, 26, 10, 6, 6, 5, 6, 2, 1]) {
            0 => self.put(b" "),
            1 => {
                let word = self
                    .random
                    .word(&[b"abc", b"x", b"=", b";", b"+", b"(", b")", b","]);
                self.put(word);
            }
            2 => self.variable_in_text(),
            3 => self.call_in_text(2),
            4 => {
                let run = self.random.word(&[b"12", b"3A", b"9_B", b"0"]);
                self.put(run);
            }
            5 => {
                let string = self
                    .random
                    .word(&[b"'A'", b"''", b"'/*'", b"'%;'", b"'A''B'"]);
                self.put(string);
            }
            6 => {
                let comment = self.random.word(&[b"/*A*/", b"/*'*/", b"/***/", b"/*%;*/"]);
                self.put(comment);
            }
            7 => self.put(b"\n"),
            8 => {
                let name = any_name(self.random);
                self.put(&name);
            }
            _ => {
                let odd = self
                    .random
                    .word(&[b"_", b"\x00", b"\xE9", b"?", b"\t", b"*", b"/ "]);
                self.put(odd);
            }
        }
    }

    fn variable_in_text(&mut self) {
        if let Some(variable) = self.random.pick(&self.world.variables) {
            let name = variable.name.clone();
            self.put(&name);
        }
    }

    /// An entry name with its arguments; a name that needs none has none.
    fn call_in_text(&mut self, depth: usize) {
        let Some(called) = self.random.pick(&self.world.procedures).cloned() else {
            return self.variable_in_text();
        };
        let entry = self.random.below(called.entries.len());
        self.put(&called.entries[entry]);
        let mut parameters = called.parameters;
        if self.mishap() {
            parameters.push(false);
        }
        if parameters.is_empty() || self.mishap() {
            return self.put(b" ");
        }
        let before = match self.random.weighted(&[70, 15, 10, 2, 2, 1]) {
            0 => &b""[..],
            1 => b" ",
            2 => b"   ",
            3 => b"\n",
            4 => b"/**/",
            _ => b"\t",
        };
        self.put(before);
        self.put(b"(");
        for (index, fixed) in parameters.iter().enumerate() {
            if index > 0 {
                self.put(b",");
            }
            if *fixed {
                self.number_argument();
            } else {
                self.text_argument(depth);
            }
        }
        self.put(b")");
    }

    fn number_argument(&mut self) {
        match self.random.weighted(&[50, 20, 10, 20]) {
            0 => self.small_number(),
            1 => self.put(b" 7 "),
            2 => self.put(b"-2"),
            _ => {
                let fixed: Vec<_> = self.world.variables.iter().filter(|v| v.fixed).collect();
                let name = self
                    .random
                    .pick(&fixed)
                    .map(|variable| variable.name.clone());
                self.put(&name.unwrap_or_default());
            }
        }
    }

    fn text_argument(&mut self, depth: usize) {
        for _ in 0..self.random.below(4) {
            match self.random.weighted(&[30, 30, 10, 10, 10, 10]) {
                0 => self.variable_in_text(),
                1 => {
                    let word = self.random.word(&[b"a", b"B ", b"12", b" ", b"="]);
                    self.put(word);
                }
                2 => self.put(b"(a,b)"),
                3 => self.put(b"',)'"),
                4 => self.put(b"/*,)*/"),
                _ if depth > 0 => self.call_in_text(depth - 1),
                _ => {}
            }
        }
    }
}
