//! Reading a member: from its body to its tree.

mod clauses;
mod expressions;
mod sentences;

use std::collections::HashSet;
use std::rc::Rc;

use crate::bytes::{byte_at, folded};
use crate::refusal::{past_limit, syntax, Read};
use crate::tokens::{first_token, scan_token, token_after, Kind, Mark, ScanKind, Token};
use crate::tree::{Declaration, Declared, Name, Procedure, Reading, Text};

/// Limits of reading.
pub struct Limits;

impl Limits {
    pub const NAME_BYTES: usize = 31;
    pub const SENTENCES_IN_MEMBER: usize = 1_024;
    pub const SENTENCES_ENTERED: usize = 2_048;
    pub const NAMES_ENTERED: usize = 256;
    pub const OPEN_PARENTHESES: usize = 16;
    pub const OPEN_GROUPS: usize = 16;
}

/// What the members entered so far have used of the limits that span members.
#[derive(Debug, Default)]
pub struct Entered {
    pub sentences: usize,
    names: usize,
    global: HashSet<Name>,
}

/// A label as it stands in a label list.
struct Label {
    name: Name,
    at: usize,
}

/// The reader of one body.
struct Reader<'b, 'e> {
    body: &'b [u8],
    /// The token last taken; its end is where reading goes on.
    last: Token,
    ahead: Option<Token>,
    entered: &'e mut Entered,
    sentences: Vec<usize>,
    /// Groups and alternatives open.
    open: usize,
    /// Where the sentence being read stands.
    path: Vec<usize>,
    /// The number of the procedure being read.
    procedure: Option<usize>,
    local: HashSet<Name>,
    procedures: Vec<Rc<Procedure>>,
    declarations: Vec<Declaration>,
}

/// Reads a member that is entered for the first time.
pub fn read(body: &[u8], entered: &mut Entered) -> Read<Reading> {
    let mut reader = Reader {
        body,
        last: Token {
            kind: Kind::Mark(Mark::Semicolon),
            start: 0,
            end: 0,
        },
        ahead: None,
        entered,
        sentences: Vec::new(),
        open: 0,
        path: Vec::new(),
        procedure: None,
        local: HashSet::new(),
        procedures: Vec::new(),
        declarations: Vec::new(),
    };
    let block = reader.member()?;
    let mut declarations = reader.declarations;
    declarations.sort_by_key(|declaration| declaration.at);
    reader.entered.sentences += reader.sentences.len();
    Ok(Reading {
        block,
        procedures: reader.procedures,
        declarations,
        sentences: reader.sentences,
    })
}

/// The member is entered again: its sentences are counted again (reading 9).
pub fn count_again(reading: &Reading, entered: &mut Entered) -> Read<()> {
    let left = Limits::SENTENCES_ENTERED.saturating_sub(entered.sentences);
    if let Some(at) = reading.sentences.get(left) {
        return past_limit(*at);
    }
    entered.sentences += reading.sentences.len();
    Ok(())
}

impl Reader<'_, '_> {
    /// The next token, left where it is.
    fn peek(&mut self) -> Token {
        let body = self.body;
        let last = self.last;
        *self.ahead.get_or_insert_with(|| token_after(body, &last))
    }

    /// The token behind the next one.
    fn peek_second(&mut self) -> Token {
        let next = self.peek();
        token_after(self.body, &next)
    }

    fn take(&mut self) -> Token {
        self.last = self.peek();
        self.ahead = None;
        self.last
    }

    /// Takes the next token if it is this mark.
    fn accept(&mut self, mark: Mark) -> bool {
        let found = self.peek().is(mark);
        if found {
            self.take();
        }
        found
    }

    /// Takes this mark, or it is 3 at whatever stands there.
    fn expect(&mut self, mark: Mark) -> Read<Token> {
        if self.peek().is(mark) {
            return Ok(self.take());
        }
        self.unexpected()
    }

    /// Whether the next token is one of these words.
    fn at_word(&mut self, words: &[&[u8]]) -> bool {
        let body = self.body;
        let next = self.peek();
        words.iter().any(|word| next.is_word(body, word))
    }

    fn accept_word(&mut self, words: &[&[u8]]) -> bool {
        let found = self.at_word(words);
        if found {
            self.take();
        }
        found
    }

    fn expect_word(&mut self, word: &[u8]) -> Read<()> {
        if self.accept_word(&[word]) {
            return Ok(());
        }
        self.unexpected()
    }

    /// 3 at the next token: it cannot follow.
    fn unexpected<T>(&mut self) -> Read<T> {
        syntax(self.peek().start)
    }

    /// An identifier, folded; over 31 bytes it is 4 (reading 11).
    fn name(&mut self) -> Read<Label> {
        let token = self.peek();
        if token.kind != Kind::Word {
            return self.unexpected();
        }
        let bytes = token.bytes(self.body);
        if bytes.len() > Limits::NAME_BYTES {
            return past_limit(token.start);
        }
        self.take();
        Ok(Label {
            name: Rc::from(folded(bytes)),
            at: token.start,
        })
    }

    /// `item {, item}`.
    fn list<T>(&mut self, mut item: impl FnMut(&mut Self) -> Read<T>) -> Read<Vec<T>> {
        let mut items = vec![item(self)?];
        while self.accept(Mark::Comma) {
            items.push(item(self)?);
        }
        Ok(items)
    }

    /// The text from here to the next `%` outside strings and comments.
    fn text(&mut self) -> Read<Text> {
        let start = self.last.end;
        let mut at = start;
        while byte_at(self.body, at).is_some_and(|byte| byte != b'%') {
            let token = scan_token(self.body, at);
            if token.kind == (ScanKind::Other { closed: false }) {
                return syntax(at);
            }
            at = token.end;
        }
        self.ahead = Some(first_token(self.body, at));
        Ok(Text { start, end: at })
    }

    /// Counts a sentence or procedure statement that begins at `at`.
    fn count_sentence(&mut self, at: usize) -> Read<()> {
        let count = self.sentences.len() + 1;
        let sum = self.entered.sentences + count;
        if count > Limits::SENTENCES_IN_MEMBER || sum > Limits::SENTENCES_ENTERED {
            return past_limit(at);
        }
        self.sentences.push(at);
        Ok(())
    }

    /// Counts a declared name, once per scope (reading 12).
    fn count_name(&mut self, label: &Label) -> Read<()> {
        let scope = match self.procedure {
            Some(_) => &mut self.local,
            None => &mut self.entered.global,
        };
        if !scope.insert(Rc::clone(&label.name)) {
            return Ok(());
        }
        if self.entered.names == Limits::NAMES_ENTERED {
            return past_limit(label.at);
        }
        self.entered.names += 1;
        Ok(())
    }

    /// Notes a declaration in the scope being read.
    fn declare(&mut self, label: &Label, declared: Declared) {
        self.declarations.push(Declaration {
            at: label.at,
            name: Rc::clone(&label.name),
            procedure: self.procedure,
            declared,
        });
    }

    /// Opens a group or alternative; the 17th is 4 at `at` (reading 10).
    fn open_another(&mut self, at: usize) -> Read<()> {
        if self.open == Limits::OPEN_GROUPS {
            return past_limit(at);
        }
        self.open += 1;
        Ok(())
    }
}
