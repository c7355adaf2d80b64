//! Mazes: labels on everything, and GOTOs from anywhere to anywhere.

use super::programs::Bodies;
use super::random::Random;

const MEMBERS: [&str; 3] = ["MAIN", "A", "B"];
const DEEPEST: usize = 4;

/// A maze while it is written.
struct Maze<'r> {
    random: &'r mut Random,
    body: String,
    /// Labels written so far are L0, L1 and so on.
    labels: usize,
    /// `%` outside procedures, nothing inside.
    percent: &'static str,
    /// Members that come later may be included.
    member: usize,
}

/// A maze over one to three members, with a procedure in it now and then.
pub fn maze(random: &mut Random) -> Bodies {
    let count = random.weighted(&[0, 50, 35, 15]);
    let mut maze = Maze {
        random,
        body: String::new(),
        labels: 0,
        percent: "%",
        member: 0,
    };
    let mut bodies = Vec::new();
    for member in 0..count {
        maze.member = MEMBERS.len() - count + member;
        if member == 0 {
            maze.body.push_str("%DCL (F,I0,I1,I2,I3,I4) FIXED;%F=0;");
            maze.procedure();
        }
        maze.block(0);
        bodies.push(std::mem::take(&mut maze.body).into_bytes());
    }
    let names = MEMBERS.iter().skip(MEMBERS.len() - count);
    Bodies {
        names: names.map(|name| name.as_bytes().to_vec()).collect(),
        bodies,
        ..Bodies::default()
    }
}

impl Maze<'_> {
    fn put(&mut self, bytes: &str) {
        self.body.push_str(bytes);
    }

    /// A statement's `%` if it has one, and what follows.
    fn begin(&mut self, bytes: &str) {
        self.put(self.percent);
        self.put(bytes);
    }

    fn procedure(&mut self) {
        if self.random.percent(60) {
            return;
        }
        self.put("%P:PROC RETURNS(CHAR);");
        self.percent = "";
        self.block(1);
        self.percent = "%";
        self.put("RETURN('r');%END;%ACT P;");
    }

    /// Some labelled statements, outside procedures with text.
    fn block(&mut self, depth: usize) {
        for _ in 0..self.random.between(1, 4) {
            self.statement(depth);
            if !self.percent.is_empty() {
                let text = ["", "x", " ", "F", "P "][self.random.below(5)];
                self.put(text);
            }
        }
    }

    fn label(&mut self) {
        let label = format!("L{}:", self.labels);
        self.labels += 1;
        self.put(&label);
    }

    fn statement(&mut self, depth: usize) {
        self.put(self.percent);
        if self.random.percent(70) {
            self.label();
        }
        let nests = usize::from(depth < DEEPEST);
        let weights = [10, 30, 12 * nests, 8 * nests, 12 * nests, 8];
        match self.random.weighted(&weights) {
            0 => self.put(";"),
            1 => self.goto(),
            2 => self.group("DO;", depth),
            3 => {
                let ends = ["", " TO 2", " BY 1 TO 1", " TO 0"][self.random.below(4)];
                let head = format!("DO I{depth}=1{ends};");
                self.group(&head, depth);
            }
            4 => self.choice(depth),
            _ => self.include(),
        }
    }

    /// A GOTO that is taken a few times only, so that the run ends; now and
    /// then one that is always taken. Some targets come later, or never.
    fn goto(&mut self) {
        let target = self.random.below(self.labels + 4);
        if self.random.one_in(12) {
            return self.put(&format!("GOTO L{target};"));
        }
        let limit = self.random.between(1, 6);
        self.put(&format!("IF F<{limit} "));
        self.begin("THEN ");
        self.begin("DO;");
        self.begin("F=F+1;");
        self.begin(&format!("GOTO L{target};"));
        self.begin("END;");
    }

    fn group(&mut self, head: &str, depth: usize) {
        self.put(head);
        self.block(depth + 1);
        self.put(self.percent);
        if self.random.one_in(4) {
            self.label();
        }
        self.put("END;");
    }

    /// IF with one alternative or two.
    fn choice(&mut self, depth: usize) {
        let condition = ["IF 1 ", "IF 0 ", "IF F>2 "][self.random.below(3)];
        self.put(condition);
        self.begin("THEN ");
        self.statement(depth + 1);
        if self.random.percent(50) {
            self.begin("ELSE ");
            self.statement(depth + 1);
        }
    }

    fn include(&mut self) {
        let later = MEMBERS.get(self.member + 1..).unwrap_or(&[]);
        match self.random.pick(later) {
            Some(name) if !self.percent.is_empty() => self.put(&format!("INCLUDE {name};")),
            _ => self.put("F=F+1;"),
        }
    }
}
