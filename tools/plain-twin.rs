//! A plain-Rust twin of the tool, to measure the tool's speed against. It does each command by the same rules
//! (docs/LANGUAGE.md, docs/MACHINE.md and docs/FORMATS.md) and shares no code with the tool. Nothing in it is proved, and
//! nobody should use it for anything but its time.
//!
//! ```text
//! rustc --edition 2021 -O -o plain-twin tools/plain-twin.rs
//! ./plain-twin audit p.mit s.toml --observer L --budget 1000
//! ./plain-twin lab bound p.mit s.toml --observer L --machine m.toml
//! ```
//!
//! Behind the word `lab` it does what the lab does by `seen`, `timeline`, `bound` and `leak`.
//!
//! It needs the standard library alone, has no unsafe code and starts no threads.
//!
//! What it leaves out is what of TOML start files and machine files seldom have, and of the lab refused words and refused
//! programs that run: that gives a line on standard error and status 20, which says that this program does not answer the
//! call.

use std::collections::HashMap;
use std::hash::{BuildHasherDefault, Hasher};
use std::io::Write;
use std::process::ExitCode;

const MOST_BYTES: usize = 1_048_576;
const MOST_LABELS: usize = 32;
const MOST_DECLARATIONS: usize = 1_024;
const MOST_ELEMENTS: u64 = 2_048;
const MOST_NAME: usize = 32;
const MOST_OPEN: u32 = 100;
const MOST_OPERATORS: u32 = 256;
const MOST_INSTRUCTIONS: usize = 200_000;
const MOST_RUNS: usize = 4_096;
const MOST_EVENTS: usize = 16_777_216;
const GREATEST_BUDGET: u64 = 1 << 40;
const MOST_SETS: i64 = 4_096;
const MOST_WAYS: i64 = 8;
const MOST_COST: u64 = 1_000;

/// The status of a call that this program does not answer.
const NOT_ANSWERED: u8 = 20;
/// The status of words that are not UTF-8.
const BAD_WORDS: u8 = 13;

/// A refusal: `Plain` is told on standard error, `Line` is the tool's own line with the tool's status.
enum Stop {
    Plain(String),
    Line(u8, String),
}

type Answer<T> = Result<T, Stop>;

fn plain<T>(what: impl Into<String>) -> Answer<T> {
    Err(Stop::Plain(what.into()))
}

// --- Tokens

#[derive(Clone, Copy, PartialEq)]
enum Token<'a> {
    Labels,
    Order,
    Var,
    Skip,
    If,
    Then,
    Else,
    While,
    Do,
    Mitigate,
    Sleep,
    Name(&'a str),
    Number(i64),
    Becomes,
    Colon,
    Semicolon,
    Comma,
    Open,
    Close,
    OpenBrace,
    CloseBrace,
    OpenBracket,
    CloseBracket,
    At,
    Sign(Operator),
    End,
}

#[derive(Clone, Copy, PartialEq)]
enum Operator {
    Add,
    Subtract,
    Multiply,
    Divide,
    Remainder,
    Equal,
    Different,
    Less,
    AtMost,
    Greater,
    AtLeast,
}

impl Operator {
    fn rank(self) -> u32 {
        match self {
            Operator::Add | Operator::Subtract => 2,
            Operator::Multiply | Operator::Divide | Operator::Remainder => 3,
            _ => 1,
        }
    }

    fn sign(self) -> &'static str {
        match self {
            Operator::Add => "+",
            Operator::Subtract => "-",
            Operator::Multiply => "*",
            Operator::Divide => "/",
            Operator::Remainder => "%",
            Operator::Equal => "==",
            Operator::Different => "!=",
            Operator::Less => "<",
            Operator::AtMost => "<=",
            Operator::Greater => ">",
            Operator::AtLeast => ">=",
        }
    }
}

impl Operator {
    fn act(self) -> Act {
        match self {
            Operator::Add => Act::Add,
            Operator::Subtract => Act::Subtract,
            Operator::Multiply => Act::Multiply,
            Operator::Divide => Act::Divide,
            Operator::Remainder => Act::Remainder,
            Operator::Equal => Act::Equal,
            Operator::Different => Act::Different,
            Operator::Less => Act::Less,
            Operator::AtMost => Act::AtMost,
            Operator::Greater => Act::Greater,
            Operator::AtLeast => Act::AtLeast,
        }
    }
}

impl Act {
    /// What stands in an image before what the instruction names.
    fn word(self) -> &'static str {
        match self {
            Act::Push => " PUSH ",
            Act::Load => " LOAD ",
            Act::Store => " STORE ",
            Act::LoadElement => " LOADX ",
            Act::StoreElement => " STOREX ",
            Act::Add => " OP +",
            Act::Subtract => " OP -",
            Act::Multiply => " OP *",
            Act::Divide => " OP /",
            Act::Remainder => " OP %",
            Act::Equal => " OP ==",
            Act::Different => " OP !=",
            Act::Less => " OP <",
            Act::AtMost => " OP <=",
            Act::Greater => " OP >",
            Act::AtLeast => " OP >=",
            Act::JumpIfZero => " BRZ ",
            Act::JumpIfNot => " BRNZ ",
            Act::Jump => " JMP ",
            Act::Sleep => " SLEEP",
            Act::Begin => " MITB ",
            Act::End => " MITE",
            Act::Nothing => " NOP",
            Act::Halt => " HALT",
        }
    }
}

/// Goes over the text; `token` begins at byte `begin`, and `at` is the byte after it.
struct Lexer<'a> {
    text: &'a str,
    at: usize,
    begin: usize,
    token: Token<'a>,
    /// Whether no token begins, or ends well, where the last one was looked for.
    has_failed: bool,
}

impl<'a> Lexer<'a> {
    fn new(text: &'a str) -> Answer<Self> {
        let mut lexer = Lexer { text, at: 0, begin: 0, token: Token::End, has_failed: false };
        lexer.advance()?;
        Ok(lexer)
    }

    /// Goes on to the end of the text: a fault of its tokens comes before one of its grammar.
    fn rest(&mut self) -> Answer<()> {
        while !self.has_failed && self.token != Token::End {
            self.advance()?;
        }
        Ok(())
    }

    /// A fault of the tokens.
    fn bad<T>(&mut self, what: &str) -> Answer<T> {
        self.has_failed = true;
        self.fault(what)
    }

    fn byte(&self, at: usize) -> u8 {
        self.text.as_bytes().get(at).copied().unwrap_or(0)
    }

    fn fault<T>(&self, what: &str) -> Answer<T> {
        Err(syntax_at(self.text, self.begin, what))
    }

    fn skip_blank(&mut self) {
        let bytes = self.text.as_bytes();
        while let Some(&byte) = bytes.get(self.at) {
            match byte {
                b' ' | b'\t' | b'\r' | b'\n' => self.at += 1,
                b'/' if self.byte(self.at + 1) == b'/' => {
                    while self.at < bytes.len() && bytes[self.at] != b'\n' {
                        self.at += 1;
                    }
                }
                _ => return,
            }
        }
    }

    fn advance(&mut self) -> Answer<()> {
        self.skip_blank();
        self.begin = self.at;
        self.token = match self.text.as_bytes().get(self.at) {
            None => Token::End,
            Some(b'a'..=b'z' | b'A'..=b'Z') => self.word()?,
            Some(b'0'..=b'9') => self.number()?,
            Some(&byte) => self.sign(byte)?,
        };
        Ok(())
    }

    fn word(&mut self) -> Answer<Token<'a>> {
        let bytes = self.text.as_bytes();
        while self.at < bytes.len() && (bytes[self.at].is_ascii_alphanumeric() || bytes[self.at] == b'_') {
            self.at += 1;
        }
        let word = &self.text[self.begin..self.at];
        Ok(match word {
            "labels" => Token::Labels,
            "order" => Token::Order,
            "var" => Token::Var,
            "skip" => Token::Skip,
            "if" => Token::If,
            "then" => Token::Then,
            "else" => Token::Else,
            "while" => Token::While,
            "do" => Token::Do,
            "mitigate" => Token::Mitigate,
            "sleep" => Token::Sleep,
            _ if word.len() > MOST_NAME => return self.bad("long name"),
            _ => Token::Name(word),
        })
    }

    fn number(&mut self) -> Answer<Token<'a>> {
        let mut value = 0i64;
        while let Some(digit @ b'0'..=b'9') = self.text.as_bytes().get(self.at) {
            let more = value.checked_mul(10).and_then(|v| v.checked_add((digit - b'0') as i64));
            let Some(more) = more else {
                return self.bad("wide number");
            };
            value = more;
            self.at += 1;
        }
        Ok(Token::Number(value))
    }

    fn sign(&mut self, byte: u8) -> Answer<Token<'a>> {
        let is_wide = self.byte(self.at + 1) == b'=';
        let (token, length) = match (byte, is_wide) {
            (b':', true) => (Token::Becomes, 2),
            (b'=', true) => (Token::Sign(Operator::Equal), 2),
            (b'!', true) => (Token::Sign(Operator::Different), 2),
            (b'<', true) => (Token::Sign(Operator::AtMost), 2),
            (b'>', true) => (Token::Sign(Operator::AtLeast), 2),
            (b'<', false) => (Token::Sign(Operator::Less), 1),
            (b'>', false) => (Token::Sign(Operator::Greater), 1),
            (b':', false) => (Token::Colon, 1),
            (b';', _) => (Token::Semicolon, 1),
            (b',', _) => (Token::Comma, 1),
            (b'(', _) => (Token::Open, 1),
            (b')', _) => (Token::Close, 1),
            (b'{', _) => (Token::OpenBrace, 1),
            (b'}', _) => (Token::CloseBrace, 1),
            (b'[', _) => (Token::OpenBracket, 1),
            (b']', _) => (Token::CloseBracket, 1),
            (b'@', _) => (Token::At, 1),
            (b'+', _) => (Token::Sign(Operator::Add), 1),
            (b'-', _) => (Token::Sign(Operator::Subtract), 1),
            (b'*', _) => (Token::Sign(Operator::Multiply), 1),
            (b'/', _) => (Token::Sign(Operator::Divide), 1),
            (b'%', _) => (Token::Sign(Operator::Remainder), 1),
            _ => return self.bad("bad byte"),
        };
        self.at += length;
        Ok(token)
    }
}

fn syntax(what: impl std::fmt::Display) -> Stop {
    Stop::Line(2, format!("syntax: {what}\n"))
}

fn syntax_at(text: &str, at: usize, what: &str) -> Stop {
    let (line, column) = place_of(text, at);
    syntax(format!("{what} at {line}:{column}"))
}

/// The line and the column of a byte of a text.
fn place_of(text: &str, at: usize) -> (usize, usize) {
    let before = &text.as_bytes()[..at];
    let line = before.iter().filter(|byte| **byte == b'\n').count() + 1;
    let column = before.iter().rev().take_while(|byte| **byte != b'\n').count() + 1;
    (line, column)
}

// --- Labels

/// The labels of a program: `below[a]` has a bit for each label that flows to a.
struct Lattice<'a> {
    names: Vec<&'a str>,
    pairs: Vec<(u8, u8)>,
    below: Vec<u32>,
    joins: [[u8; MOST_LABELS]; MOST_LABELS],
    bottom: u8,
}

impl<'a> Lattice<'a> {
    fn new(names: Vec<&'a str>, pairs: Vec<(u8, u8)>) -> Answer<Self> {
        let size = names.len();
        let mut below: Vec<u32> = (0..size).map(|label| 1 << label).collect();
        for &(low, high) in &pairs {
            below[high as usize] |= 1 << low;
        }
        for over in 0..size {
            for label in 0..size {
                if below[label] >> over & 1 != 0 {
                    below[label] |= below[over];
                }
            }
        }
        let flows = |a: usize, b: usize| below[b] >> a & 1 != 0;
        let first = |holds: &dyn Fn(usize, usize) -> bool| {
            (0..size).flat_map(|a| (a + 1..size).map(move |b| (a, b))).find(|(a, b)| holds(*a, *b))
        };
        let least = |a: usize, b: usize| {
            let is_above = |c: usize| flows(a, c) && flows(b, c);
            (0..size).find(|c| is_above(*c) && (0..size).all(|d| !is_above(d) || flows(*c, d)))
        };
        if let Some((a, b)) = first(&|a, b| flows(a, b) && flows(b, a)) {
            return Err(syntax(format!("order cycle between {} and {}", names[a], names[b])));
        }
        if let Some((a, b)) = first(&|a, b| !(0..size).any(|c| flows(c, a) && flows(c, b))) {
            return Err(syntax(format!("no bottom below {} and {}", names[a], names[b])));
        }
        if let Some((a, b)) = first(&|a, b| least(a, b).is_none()) {
            return Err(syntax(format!("no join of {} and {}", names[a], names[b])));
        }
        let mut joins = [[0; MOST_LABELS]; MOST_LABELS];
        for a in 0..size {
            for b in 0..size {
                joins[a][b] = least(a, b).unwrap_or(0) as u8;
            }
        }
        let bottom = (0..size).find(|a| (0..size).all(|b| flows(*a, b))).unwrap_or(0);
        Ok(Lattice { names, pairs, below, joins, bottom: bottom as u8 })
    }

    /// The labels of a text without a header.
    fn two() -> Self {
        let (below, mut joins) = (vec![1, 3], [[0; MOST_LABELS]; MOST_LABELS]);
        (joins[0][1], joins[1][0], joins[1][1]) = (1, 1, 1);
        Lattice { names: vec!["L", "H"], pairs: vec![(0, 1)], below, joins, bottom: 0 }
    }

    fn join(&self, a: u8, b: u8) -> u8 {
        self.joins[a as usize % MOST_LABELS][b as usize % MOST_LABELS]
    }

    fn flows(&self, a: u8, b: u8) -> bool {
        self.below[b as usize] >> a & 1 != 0
    }

    fn name(&self, label: u8) -> &'a str {
        self.names[label as usize]
    }

    fn find(&self, name: &str) -> Option<u8> {
        self.names.iter().position(|known| *known == name).map(|label| label as u8)
    }
}

// --- Programs

/// A part of an expression. All parts of a program lie in one list, each expression in the order of its code: the last
/// part before an operator is its right side, `left` is the last part of its left side, and the last part before an
/// element is its index.
#[derive(Clone, Copy)]
enum Part {
    Number(i64),
    Variable { declaration: u32, is_in_index: bool },
    Element { declaration: u32, is_in_index: bool },
    Apply { operator: Operator, left: u32 },
}

/// An expression: the places of its parts.
#[derive(Clone, Copy)]
struct Expression {
    first: u32,
    end: u32,
}

const NO_EXPRESSION: Expression = Expression { first: 0, end: 0 };

struct Command {
    form: Form,
    /// The byte where the command begins.
    at: u32,
    value: Expression,
    has_marks: bool,
    read: u8,
    write: u8,
    /// The label of the guard of `if` and `while`, once labels are known.
    guard: u8,
}

enum Form {
    Skip,
    Assign { to: u32 },
    Put { to: u32, index: Expression },
    Sleep,
    If { yes: Vec<Command>, no: Vec<Command> },
    While { body: Vec<Command>, start: u32 },
    Mitigate { mark: u32, body: Vec<Command> },
}

struct Declaration<'a> {
    name: &'a str,
    length: Option<u32>,
    label: Option<u8>,
    /// The number of the variable, or of the first element.
    first: u32,
}

struct Program<'a> {
    text: &'a str,
    lattice: Lattice<'a>,
    declarations: Vec<Declaration<'a>>,
    numbers: Names<'a>,
    elements: usize,
    parts: Vec<Part>,
    body: Vec<Command>,
    commands: usize,
    /// The level of each mitigate, where it is written.
    levels: Vec<Option<u8>>,
}

impl Program<'_> {
    fn parts_of(&self, expression: Expression) -> &[Part] {
        &self.parts[expression.first as usize..expression.end as usize]
    }

    /// The declaration of each variable, elements included.
    fn owners(&self) -> Vec<u32> {
        let mut owners = Vec::with_capacity(self.elements);
        for (number, declaration) in self.declarations.iter().enumerate() {
            owners.extend(std::iter::repeat_n(number as u32, declaration.length.unwrap_or(1) as usize));
        }
        owners
    }

    fn write_variable(&self, owners: &[u32], variable: usize, out: &mut Vec<u8>) {
        let declaration = &self.declarations[owners[variable] as usize];
        out.extend_from_slice(declaration.name.as_bytes());
        if declaration.length.is_some() {
            out.push(b'[');
            write_number(variable as u64 - declaration.first as u64, out);
            out.push(b']');
        }
    }
}

/// Names are short, so a short hash is enough.
#[derive(Default)]
struct NameHasher(u64);

impl Hasher for NameHasher {
    fn write(&mut self, bytes: &[u8]) {
        for chunk in bytes.chunks(8) {
            let mut word = [0; 8];
            word[..chunk.len()].copy_from_slice(chunk);
            self.0 = (self.0.rotate_left(5) ^ u64::from_le_bytes(word)).wrapping_mul(0x517c_c1b7_2722_0a95);
        }
    }

    fn write_u64(&mut self, word: u64) {
        self.0 = (self.0.rotate_left(5) ^ word).wrapping_mul(0x517c_c1b7_2722_0a95);
    }

    fn write_usize(&mut self, word: usize) {
        self.write_u64(word as u64);
    }

    fn write_u8(&mut self, byte: u8) {
        self.0 = self.0.rotate_left(5) ^ byte as u64;
    }

    fn finish(&self) -> u64 {
        self.0 ^ self.0 >> 32
    }
}

type Names<'a> = HashMap<&'a str, u32, BuildHasherDefault<NameHasher>>;

// --- The parser

struct Parser<'a> {
    lexer: Lexer<'a>,
    lattice: Lattice<'a>,
    declarations: Vec<Declaration<'a>>,
    numbers: Names<'a>,
    parts: Vec<Part>,
    commands: usize,
    levels: Vec<Option<u8>>,
    open: u32,
    operators: u32,
    indices: u32,
    /// The first fault of names, lengths and labels: faults of the grammar come before it.
    later: Option<Stop>,
}

fn parsed(text: &str) -> Answer<Program<'_>> {
    let mut parser = Parser {
        lexer: Lexer::new(text)?,
        lattice: Lattice::two(),
        declarations: Vec::new(),
        numbers: Names::default(),
        parts: Vec::new(),
        commands: 0,
        levels: Vec::new(),
        open: 0,
        operators: 0,
        indices: 0,
        later: None,
    };
    let (elements, body) = match parser.program() {
        Ok(found) => found,
        Err(stop) => {
            parser.lexer.rest()?;
            return Err(stop);
        }
    };
    if let Some(stop) = parser.later {
        return Err(stop);
    }
    Ok(Program {
        text,
        lattice: parser.lattice,
        declarations: parser.declarations,
        numbers: parser.numbers,
        elements: elements as usize,
        parts: parser.parts,
        body,
        commands: parser.commands,
        levels: parser.levels,
    })
}

impl<'a> Parser<'a> {
    fn program(&mut self) -> Answer<(u32, Vec<Command>)> {
        self.header()?;
        let elements = self.declared()?;
        let body = self.list()?;
        self.want(Token::End)?;
        Ok((elements, body))
    }

    /// Keeps a fault that the grammar's come before.
    fn note(&mut self, stop: Stop) {
        self.later.get_or_insert(stop);
    }

    /// The same, of the token at hand.
    fn note_here(&mut self, what: &str) {
        let stop = syntax_at(self.lexer.text, self.lexer.begin, what);
        self.note(stop);
    }

    fn header(&mut self) -> Answer<()> {
        if !self.takes(Token::Labels)? {
            return Ok(());
        }
        let mut names = Vec::new();
        loop {
            let name = self.name()?;
            if names.contains(&name) {
                self.note_here("name twice");
            }
            names.push(name);
            self.lexer.advance()?;
            if !self.takes(Token::Comma)? {
                break;
            }
        }
        self.want(Token::Semicolon)?;
        let mut pairs = Vec::new();
        if self.takes(Token::Order)? {
            loop {
                let low = self.label_among(&names)?;
                self.want(Token::Sign(Operator::Less))?;
                pairs.push((low, self.label_among(&names)?));
                if !self.takes(Token::Comma)? {
                    break;
                }
            }
            self.want(Token::Semicolon)?;
        }
        if names.len() > MOST_LABELS {
            self.note(syntax(format!("too many labels: {}", names.len())));
        }
        if self.later.is_none() {
            match Lattice::new(names, pairs) {
                Ok(lattice) => self.lattice = lattice,
                Err(stop) => self.note(stop),
            }
        }
        Ok(())
    }

    fn name(&self) -> Answer<&'a str> {
        match self.lexer.token {
            Token::Name(name) => Ok(name),
            _ => self.lexer.fault("unexpected"),
        }
    }

    fn label_among(&mut self, names: &[&str]) -> Answer<u8> {
        let name = self.name()?;
        let label = names.iter().position(|known| *known == name);
        if label.is_none() {
            self.note_here("unknown name");
        }
        self.lexer.advance()?;
        Ok(label.unwrap_or(0) as u8)
    }

    fn sees(&self, token: Token) -> bool {
        self.lexer.token == token
    }

    fn want(&mut self, token: Token) -> Answer<()> {
        if !self.sees(token) {
            return self.lexer.fault("unexpected");
        }
        if token != Token::End {
            self.lexer.advance()?;
        }
        Ok(())
    }

    fn takes(&mut self, token: Token) -> Answer<bool> {
        let is_there = self.sees(token);
        if is_there {
            self.lexer.advance()?;
        }
        Ok(is_there)
    }

    fn label(&mut self) -> Answer<u8> {
        let name = self.name()?;
        let label = self.lattice.find(name);
        if label.is_none() {
            self.note_here("unknown name");
        }
        self.lexer.advance()?;
        Ok(label.unwrap_or(0))
    }

    /// Reads the declarations and gives the number of variables, elements included.
    fn declared(&mut self) -> Answer<u32> {
        let (mut variables, mut elements) = (0, 0);
        while self.takes(Token::Var)? {
            let name = self.name()?;
            if self.numbers.insert(name, self.declarations.len() as u32).is_some() {
                self.note_here("name twice");
            }
            self.lexer.advance()?;
            let length = self.length(&mut elements)?;
            let label = match self.takes(Token::Colon)? {
                true => Some(self.label()?),
                false if length.is_some() => return self.lexer.fault("unexpected"),
                false => None,
            };
            self.want(Token::Semicolon)?;
            self.declarations.push(Declaration { name, length, label, first: variables });
            variables = variables.saturating_add(length.unwrap_or(1));
        }
        if self.declarations.len() > MOST_DECLARATIONS {
            self.note(syntax(format!("too many variables: {}", self.declarations.len())));
        }
        Ok(variables)
    }

    fn length(&mut self, elements: &mut u64) -> Answer<Option<u32>> {
        if !self.takes(Token::OpenBracket)? {
            return Ok(None);
        }
        let Token::Number(length) = self.lexer.token else {
            return self.lexer.fault("unexpected");
        };
        *elements = elements.saturating_add(length as u64);
        if length == 0 || *elements > MOST_ELEMENTS {
            self.note_here("array size");
        }
        self.lexer.advance()?;
        self.want(Token::CloseBracket)?;
        Ok(Some(length as u32))
    }

    fn opens(&mut self, token: Token) -> Answer<()> {
        if !self.sees(token) {
            return self.lexer.fault("unexpected");
        }
        if self.open == MOST_OPEN {
            return self.lexer.fault("too deep");
        }
        self.open += 1;
        self.lexer.advance()
    }

    fn closes(&mut self, token: Token) -> Answer<()> {
        self.want(token)?;
        self.open -= 1;
        Ok(())
    }

    fn whole(&mut self) -> Answer<Expression> {
        self.operators = 0;
        let first = self.parts.len() as u32;
        self.comparison()?;
        Ok(Expression { first, end: self.parts.len() as u32 })
    }

    /// Takes an operator of a rank, and gives it with the place of its left side.
    fn operator(&mut self, rank: u32) -> Answer<Option<(Operator, u32)>> {
        match self.lexer.token {
            Token::Sign(operator) if operator.rank() == rank => {
                if self.operators == MOST_OPERATORS {
                    return self.lexer.fault("too deep");
                }
                self.operators += 1;
                self.lexer.advance()?;
                Ok(Some((operator, self.parts.len() as u32 - 1)))
            }
            _ => Ok(None),
        }
    }

    fn comparison(&mut self) -> Answer<()> {
        self.sum()?;
        if let Some((operator, left)) = self.operator(1)? {
            self.sum()?;
            self.parts.push(Part::Apply { operator, left });
        }
        Ok(())
    }

    fn sum(&mut self) -> Answer<()> {
        self.term()?;
        while let Some((operator, left)) = self.operator(2)? {
            self.term()?;
            self.parts.push(Part::Apply { operator, left });
        }
        Ok(())
    }

    fn term(&mut self) -> Answer<()> {
        self.atom()?;
        while let Some((operator, left)) = self.operator(3)? {
            self.atom()?;
            self.parts.push(Part::Apply { operator, left });
        }
        Ok(())
    }

    fn atom(&mut self) -> Answer<()> {
        match self.lexer.token {
            Token::Number(value) => {
                self.parts.push(Part::Number(value));
                self.lexer.advance()
            }
            Token::Name(name) => self.named(name),
            _ => {
                self.opens(Token::Open)?;
                self.comparison()?;
                self.closes(Token::Close)
            }
        }
    }

    fn named(&mut self, name: &str) -> Answer<()> {
        let (declaration, is_array) = self.use_of(name)?;
        let is_in_index = self.indices > 0;
        if is_array {
            self.index()?;
            self.parts.push(Part::Element { declaration, is_in_index });
        } else {
            self.parts.push(Part::Variable { declaration, is_in_index });
        }
        Ok(())
    }

    /// The declaration of the name that stands here, and whether an index follows, which has to fit.
    fn use_of(&mut self, name: &str) -> Answer<(u32, bool)> {
        let (declaration, begin) = (self.numbers.get(name).copied(), self.lexer.begin);
        self.lexer.advance()?;
        let has_index = self.sees(Token::OpenBracket);
        let what = match declaration {
            None => "unknown name",
            Some(number) if self.declarations[number as usize].length.is_some() != has_index => "wrong use of a name",
            Some(number) => return Ok((number, has_index)),
        };
        let stop = syntax_at(self.lexer.text, begin, what);
        self.note(stop);
        Ok((0, has_index))
    }

    fn index(&mut self) -> Answer<()> {
        self.opens(Token::OpenBracket)?;
        self.indices += 1;
        self.comparison()?;
        self.indices -= 1;
        self.closes(Token::CloseBracket)
    }

    fn marks(&mut self, command: &mut Command) -> Answer<()> {
        if !self.takes(Token::At)? {
            return Ok(());
        }
        self.want(Token::OpenBracket)?;
        command.has_marks = true;
        command.read = self.label()?;
        command.write = if self.takes(Token::Comma)? { self.label()? } else { command.read };
        self.want(Token::CloseBracket)
    }

    fn block(&mut self) -> Answer<Vec<Command>> {
        self.opens(Token::OpenBrace)?;
        let commands = self.list()?;
        self.closes(Token::CloseBrace)?;
        Ok(commands)
    }

    fn list(&mut self) -> Answer<Vec<Command>> {
        let mut commands = vec![self.command()?];
        while self.takes(Token::Semicolon)? {
            commands.push(self.command()?);
        }
        Ok(commands)
    }

    fn blank(&mut self, at: u32) -> Command {
        self.commands += 1;
        let label = self.lattice.bottom;
        Command {
            form: Form::Skip,
            at,
            value: NO_EXPRESSION,
            has_marks: false,
            read: label,
            write: label,
            guard: label,
        }
    }

    fn command(&mut self) -> Answer<Command> {
        let mut command = self.blank(self.lexer.begin as u32);
        match self.lexer.token {
            Token::Skip => {
                self.lexer.advance()?;
                self.marks(&mut command)?;
            }
            Token::Name(name) => self.assignment(name, &mut command)?,
            Token::Sleep => {
                self.lexer.advance()?;
                command.value = self.whole()?;
                self.marks(&mut command)?;
                command.form = Form::Sleep;
            }
            Token::If => self.choice(&mut command)?,
            Token::While => {
                self.lexer.advance()?;
                command.value = self.whole()?;
                self.marks(&mut command)?;
                self.want(Token::Do)?;
                command.form = Form::While { body: self.block()?, start: 0 };
            }
            Token::Mitigate => self.mitigation(&mut command)?,
            _ => return self.lexer.fault("unexpected"),
        }
        Ok(command)
    }

    fn assignment(&mut self, name: &str, command: &mut Command) -> Answer<()> {
        let (to, is_array) = self.use_of(name)?;
        command.form = Form::Assign { to };
        if is_array {
            self.operators = 0;
            let first = self.parts.len() as u32;
            self.index()?;
            command.form = Form::Put { to, index: Expression { first, end: self.parts.len() as u32 } };
        }
        self.want(Token::Becomes)?;
        command.value = self.whole()?;
        self.marks(command)
    }

    fn choice(&mut self, command: &mut Command) -> Answer<()> {
        self.lexer.advance()?;
        command.value = self.whole()?;
        self.marks(command)?;
        self.want(Token::Then)?;
        let yes = self.block()?;
        let no = if self.takes(Token::Else)? { self.block()? } else { vec![self.blank(command.at)] };
        command.form = Form::If { yes, no };
        Ok(())
    }

    fn mitigation(&mut self, command: &mut Command) -> Answer<()> {
        self.lexer.advance()?;
        self.opens(Token::Open)?;
        command.value = self.whole()?;
        let level = if self.takes(Token::Comma)? { Some(self.label()?) } else { None };
        self.closes(Token::Close)?;
        let mark = self.levels.len() as u32;
        self.levels.push(level);
        self.marks(command)?;
        command.form = Form::Mitigate { mark, body: self.block()? };
        Ok(())
    }
}

// --- Inference

/// A program with all its labels: the marks of each command are filled in.
struct Labelled<'a> {
    program: Program<'a>,
    variables: Vec<u8>,
    levels: Vec<u8>,
    /// The program counter label of each mitigate.
    counters: Vec<u8>,
    /// The end label of the whole program.
    end: u8,
    /// The labels of the nodes of the graph; each `while` names the node of its end label.
    nodes: Vec<u8>,
}

/// The conditions as a graph: each node has a label, and that of each edge's source flows to that of its target. The
/// first nodes are the declarations and then the levels; more nodes are program counters and timing labels. A node
/// without edges to it is settled when it is made, and what comes from it is joined to its targets at once.
struct Graph<'p> {
    lattice: &'p Lattice<'p>,
    parts: &'p [Part],
    declarations: usize,
    labels: Vec<u8>,
    is_settled: Vec<bool>,
    edges: Vec<(u32, u32)>,
}

impl Graph<'_> {
    fn node(&mut self, label: u8, is_settled: bool) -> u32 {
        self.labels.push(label);
        self.is_settled.push(is_settled);
        self.labels.len() as u32 - 1
    }

    fn raise(&mut self, node: u32, label: u8) {
        self.labels[node as usize] = self.lattice.join(self.labels[node as usize], label);
    }

    /// Makes `source` flow to `target`, and unsettles a target that now hangs on an open source.
    fn flow(&mut self, source: u32, target: u32) {
        if self.is_settled[source as usize] {
            self.raise(target, self.labels[source as usize]);
        } else if source != target {
            self.is_settled[target as usize] = false;
            self.edges.push((source, target));
        }
    }

    fn flow_parts(&mut self, expression: Expression, target: u32, only_in_index: bool) {
        for part in &self.parts[expression.first as usize..expression.end as usize] {
            if let Part::Variable { declaration, is_in_index } | Part::Element { declaration, is_in_index } = *part {
                if is_in_index || !only_in_index {
                    self.flow(declaration, target);
                }
            }
        }
    }

    /// Makes a command's read label flow to `target`.
    fn flow_read(&mut self, command: &Command, counter: u32, target: u32) {
        if command.has_marks {
            self.raise(target, command.read);
            return;
        }
        self.flow(counter, target);
        self.flow_parts(command.value, target, true);
    }

    /// A node for what is above a label, the command's read label and, on demand, its value.
    fn after(&mut self, command: &Command, counter: u32, start: u32) -> u32 {
        let node = self.node(self.lattice.bottom, true);
        self.flow(start, node);
        self.flow_read(command, counter, node);
        self.flow_parts(command.value, node, false);
        node
    }

    fn list(&mut self, commands: &mut [Command], counter: u32, mut start: u32) -> u32 {
        for command in commands {
            start = self.command(command, counter, start);
        }
        start
    }

    /// Adds a command's conditions and gives the node of its end label.
    fn command(&mut self, command: &mut Command, counter: u32, start: u32) -> u32 {
        match command.form {
            Form::Skip | Form::Sleep => return self.after(command, counter, start),
            Form::Assign { to } => return self.assignment(command, to, NO_EXPRESSION, counter, start),
            Form::Put { to, index } => return self.assignment(command, to, index, counter, start),
            _ => {}
        }
        let after = self.after(command, counter, start);
        match &mut command.form {
            Form::If { yes, no } => {
                let inner = self.inner(command.value, counter);
                let ends = [self.list(yes, inner, after), self.list(no, inner, after)];
                let end = self.node(self.lattice.bottom, true);
                ends.iter().for_each(|source| self.flow(*source, end));
                end
            }
            Form::While { body, start } => {
                *start = after;
                self.is_settled[after as usize] = false;
                let inner = self.inner(command.value, counter);
                let end = self.list(body, inner, after);
                self.flow(end, after);
                after
            }
            Form::Mitigate { mark, body } => {
                let level = self.declarations as u32 + *mark;
                let end = self.list(body, counter, after);
                if !self.is_settled[level as usize] {
                    self.flow(end, level);
                }
                after
            }
            _ => after,
        }
    }

    fn inner(&mut self, guard: Expression, counter: u32) -> u32 {
        let node = self.node(self.lattice.bottom, true);
        self.flow(counter, node);
        self.flow_parts(guard, node, false);
        node
    }

    /// The end of an assignment is the variable's own node where its label is left out.
    fn assignment(&mut self, command: &Command, to: u32, index: Expression, counter: u32, start: u32) -> u32 {
        let end = if self.is_settled[to as usize] { self.node(self.labels[to as usize], true) } else { to };
        self.flow(counter, end);
        self.flow(start, end);
        self.flow_parts(command.value, end, false);
        self.flow_parts(index, end, false);
        if command.has_marks {
            self.raise(end, command.read);
        }
        end
    }

    /// Raises labels along the edges until no label rises.
    fn solve(&mut self) {
        let (begins, targets) = self.targets();
        let mut is_waiting = vec![false; self.labels.len()];
        let mut waiting: std::collections::VecDeque<u32> = std::collections::VecDeque::new();
        for node in 0..self.labels.len() {
            if self.labels[node] != self.lattice.bottom && begins[node] != begins[node + 1] {
                is_waiting[node] = true;
                waiting.push_back(node as u32);
            }
        }
        while let Some(node) = waiting.pop_front() {
            let node = node as usize;
            is_waiting[node] = false;
            let label = self.labels[node];
            for &target in &targets[begins[node] as usize..begins[node + 1] as usize] {
                let target = target as usize;
                let joined = self.lattice.join(self.labels[target], label);
                if joined != self.labels[target] {
                    self.labels[target] = joined;
                    if !is_waiting[target] {
                        is_waiting[target] = true;
                        waiting.push_back(target as u32);
                    }
                }
            }
        }
    }

    /// The targets of each node: those of node n lie from `begins[n]` to `begins[n + 1]`.
    fn targets(&self) -> (Vec<u32>, Vec<u32>) {
        let mut begins = vec![0; self.labels.len() + 1];
        for &(source, _) in &self.edges {
            begins[source as usize + 1] += 1;
        }
        for node in 1..begins.len() {
            begins[node] += begins[node - 1];
        }
        let (mut next, mut targets) = (begins.clone(), vec![0; self.edges.len()]);
        for &(source, target) in &self.edges {
            targets[next[source as usize] as usize] = target;
            next[source as usize] += 1;
        }
        (begins, targets)
    }
}

/// Finds the least labelling of a program and checks it.
fn labelled(mut program: Program) -> Answer<Labelled> {
    let mut body = std::mem::take(&mut program.body);
    let mut graph = Graph {
        lattice: &program.lattice,
        parts: &program.parts,
        declarations: program.declarations.len(),
        labels: Vec::new(),
        is_settled: Vec::new(),
        edges: Vec::new(),
    };
    let given = program.declarations.iter().map(|declaration| declaration.label);
    for label in given.chain(program.levels.iter().copied()) {
        graph.node(label.unwrap_or(program.lattice.bottom), label.is_some());
    }
    let bottom = graph.node(program.lattice.bottom, true);
    graph.list(&mut body, bottom, bottom);
    graph.solve();
    let labels = graph.labels;
    let names = program.declarations.len();
    let mut checker = Checker { program: &program, labels: &labels, counters: vec![0; program.levels.len()] };
    let end = checker.list(&mut body, program.lattice.bottom, program.lattice.bottom)?;
    let (counters, variables) = (checker.counters, labels[..names].to_vec());
    let levels = labels[names..names + program.levels.len()].to_vec();
    program.body = body;
    Ok(Labelled { program, variables, levels, counters, end, nodes: labels })
}

fn rule_of(command: &Command) -> &'static str {
    match command.form {
        Form::Skip => "T-SKIP",
        Form::Assign { .. } | Form::Put { .. } => "T-ASGN",
        Form::Sleep => "T-SLEEP",
        Form::If { .. } => "T-IF",
        Form::While { .. } => "T-WHILE",
        Form::Mitigate { .. } => "T-MTG",
    }
}

/// Walks the commands in their order, fills in their marks and finds the first condition that fails.
struct Checker<'p> {
    program: &'p Program<'p>,
    labels: &'p [u8],
    counters: Vec<u8>,
}

impl Checker<'_> {
    fn join(&self, a: u8, b: u8) -> u8 {
        self.program.lattice.join(a, b)
    }

    /// The join of the labels of an expression, and that of those in its indices.
    fn label(&self, expression: Expression) -> (u8, u8) {
        let (mut all, mut inside) = (self.program.lattice.bottom, self.program.lattice.bottom);
        for part in self.program.parts_of(expression) {
            if let Part::Variable { declaration, is_in_index } | Part::Element { declaration, is_in_index } = *part {
                let label = self.labels[declaration as usize];
                all = self.join(all, label);
                if is_in_index {
                    inside = self.join(inside, label);
                }
            }
        }
        (all, inside)
    }

    /// The join of the labels of a command's expressions, and that of those in its indices.
    fn labels_of(&self, command: &Command) -> (u8, u8) {
        let (value, inside) = self.label(command.value);
        let Form::Put { index, .. } = command.form else {
            return (value, inside);
        };
        let (place, _) = self.label(index);
        (self.join(value, place), self.join(inside, place))
    }

    fn demand(&self, have: u8, allowed: u8, command: &Command) -> Answer<()> {
        if self.program.lattice.flows(have, allowed) {
            return Ok(());
        }
        let rule = rule_of(command);
        let (line, column) = place_of(self.program.text, command.at as usize);
        let (have, allowed) = (self.program.lattice.name(have), self.program.lattice.name(allowed));
        Err(Stop::Line(1, format!("refused {rule} at {line}:{column}: {have} does not flow to {allowed}\n")))
    }

    fn list(&mut self, commands: &mut [Command], counter: u8, mut start: u8) -> Answer<u8> {
        for command in commands {
            start = self.command(command, counter, start)?;
        }
        Ok(start)
    }

    /// Checks a command and gives its end label.
    fn command(&mut self, command: &mut Command, counter: u8, start: u8) -> Answer<u8> {
        let (value, inside) = self.labels_of(command);
        let bound = self.join(counter, inside);
        if !command.has_marks {
            (command.read, command.write) = (bound, bound);
        }
        let after = self.join(self.join(start, value), command.read);
        if let Form::Assign { to } | Form::Put { to, .. } = command.form {
            let (have, label) = (self.join(after, bound), self.labels[to as usize]);
            self.demand(have, label, command)?;
            self.demand(bound, command.write, command)?;
            return Ok(self.join(label, have));
        }
        self.demand(bound, command.write, command)?;
        command.guard = value;
        self.parts(command, counter, after)
    }

    /// Checks the parts of a command from the label after its own expression.
    fn parts(&mut self, command: &mut Command, counter: u8, after: u8) -> Answer<u8> {
        let inner = self.join(counter, command.guard);
        match &mut command.form {
            Form::If { yes, no } => {
                let end = self.list(yes, inner, after)?;
                let other = self.list(no, inner, after)?;
                Ok(self.join(end, other))
            }
            Form::While { body, start } => {
                let start = self.labels[*start as usize];
                self.list(body, inner, start)?;
                Ok(start)
            }
            Form::Mitigate { mark, body } => {
                let mark = *mark as usize;
                self.counters[mark] = counter;
                let end = self.list(body, counter, after)?;
                self.demand(end, self.labels[self.program.declarations.len() + mark], command)?;
                Ok(after)
            }
            _ => Ok(after),
        }
    }
}

// --- Texts

/// The digits of the numbers below 100.
const PAIRS: [[u8; 2]; 100] = {
    let (mut pairs, mut number) = ([[0; 2]; 100], 0);
    while number < 100 {
        pairs[number] = [b'0' + (number / 10) as u8, b'0' + (number % 10) as u8];
        number += 1;
    }
    pairs
};

/// Writes the digits of a number to the end of a row, two at a time: the place of the first one.
fn digits_of(value: u64, digits: &mut [u8; 20]) -> usize {
    let (mut at, mut rest) = (20, value);
    while rest >= 100 {
        at -= 2;
        digits[at..at + 2].copy_from_slice(&PAIRS[(rest % 100) as usize]);
        rest /= 100;
    }
    if rest >= 10 {
        at -= 2;
        digits[at..at + 2].copy_from_slice(&PAIRS[rest as usize]);
    } else {
        at -= 1;
        digits[at] = b'0' + rest as u8;
    }
    at
}

fn write_number(value: u64, out: &mut Vec<u8>) {
    let mut digits = [0; 20];
    let at = digits_of(value, &mut digits);
    out.extend_from_slice(&digits[at..]);
}

fn write_signed(value: i64, out: &mut Vec<u8>) {
    if value < 0 {
        out.push(b'-');
    }
    write_number(value.unsigned_abs(), out);
}

/// Writes the canonical text of a program with all labels.
struct Printer<'p> {
    labelled: &'p Labelled<'p>,
    out: Vec<u8>,
}

impl Printer<'_> {
    fn say(&mut self, text: &str) {
        self.out.extend_from_slice(text.as_bytes());
    }

    fn label(&mut self, label: u8) {
        self.say(self.labelled.program.lattice.name(label));
    }

    fn name(&mut self, declaration: u32) {
        self.say(self.labelled.program.declarations[declaration as usize].name);
    }

    fn program(&mut self) {
        let program = &self.labelled.program;
        self.say("labels ");
        self.say(&program.lattice.names.join(", "));
        self.say(";\n");
        for (place, &(low, high)) in program.lattice.pairs.iter().enumerate() {
            self.say(if place == 0 { "order " } else { ", " });
            self.label(low);
            self.say(" < ");
            self.label(high);
        }
        if !program.lattice.pairs.is_empty() {
            self.say(";\n");
        }
        for (declaration, &label) in program.declarations.iter().zip(&self.labelled.variables) {
            self.say("var ");
            self.say(declaration.name);
            if let Some(length) = declaration.length {
                self.out.push(b'[');
                write_number(length as u64, &mut self.out);
                self.out.push(b']');
            }
            self.say(" : ");
            self.label(label);
            self.say(";\n");
        }
        self.list(&program.body, 0);
    }

    fn list(&mut self, commands: &[Command], depth: usize) {
        for (place, command) in commands.iter().enumerate() {
            self.indent(depth);
            self.command(command, depth);
            self.say(if place + 1 < commands.len() { ";\n" } else { "\n" });
        }
    }

    fn indent(&mut self, depth: usize) {
        self.out.resize(self.out.len() + 2 * depth, b' ');
    }

    fn block(&mut self, commands: &[Command], depth: usize) {
        self.say("{\n");
        self.list(commands, depth + 1);
        self.indent(depth);
        self.say("}");
    }

    fn command(&mut self, command: &Command, depth: usize) {
        match &command.form {
            Form::Skip => self.say("skip"),
            Form::Assign { to } => {
                self.name(*to);
                self.say(" := ");
                self.expression(command.value);
            }
            Form::Put { to, index } => {
                self.name(*to);
                self.say("[");
                self.expression(*index);
                self.say("] := ");
                self.expression(command.value);
            }
            Form::Sleep => {
                self.say("sleep ");
                self.expression(command.value);
            }
            Form::If { .. } => {
                self.say("if ");
                self.expression(command.value);
            }
            Form::While { .. } => {
                self.say("while ");
                self.expression(command.value);
            }
            Form::Mitigate { mark, .. } => {
                self.say("mitigate (");
                self.expression(command.value);
                self.say(", ");
                self.label(self.labelled.levels[*mark as usize]);
                self.say(")");
            }
        }
        self.say(" @[");
        self.label(command.read);
        self.say(", ");
        self.label(command.write);
        self.say("]");
        self.parts(command, depth);
    }

    fn parts(&mut self, command: &Command, depth: usize) {
        match &command.form {
            Form::If { yes, no } => {
                self.say(" then ");
                self.block(yes, depth);
                self.say(" else ");
                self.block(no, depth);
            }
            Form::While { body, .. } => {
                self.say(" do ");
                self.block(body, depth);
            }
            Form::Mitigate { body, .. } => {
                self.say(" ");
                self.block(body, depth);
            }
            _ => {}
        }
    }

    fn expression(&mut self, expression: Expression) {
        self.part(expression.end as usize - 1, 0);
    }

    fn part(&mut self, at: usize, needed: u32) {
        match self.labelled.program.parts[at] {
            Part::Number(value) => write_signed(value, &mut self.out),
            Part::Variable { declaration, .. } => self.name(declaration),
            Part::Element { declaration, .. } => {
                self.name(declaration);
                self.say("[");
                self.part(at - 1, 0);
                self.say("]");
            }
            Part::Apply { operator, left } => {
                let rank = operator.rank();
                let is_bracketed = rank < needed;
                if is_bracketed {
                    self.say("(");
                }
                self.part(left as usize, if rank == 1 { 2 } else { rank });
                self.say(" ");
                self.say(operator.sign());
                self.say(" ");
                self.part(at - 1, rank + 1);
                if is_bracketed {
                    self.say(")");
                }
            }
        }
    }
}

// --- Code

/// What an instruction does; each operator is one.
#[derive(Clone, Copy, PartialEq)]
enum Act {
    Push,
    Load,
    Store,
    LoadElement,
    StoreElement,
    Add,
    Subtract,
    Multiply,
    Divide,
    Remainder,
    Equal,
    Different,
    Less,
    AtMost,
    Greater,
    AtLeast,
    JumpIfZero,
    JumpIfNot,
    Jump,
    Sleep,
    Begin,
    End,
    Nothing,
    Halt,
}

/// An instruction, a row of 16 bytes: a number, or the length of an array, or a mark stands in `value`; a variable, the first
/// one of an array, a target or a level in `first`.
#[derive(Clone, Copy)]
struct Instruction {
    act: Act,
    reach: Reach,
    first: u32,
    value: i64,
}

/// The labels of an access: it changes the partition of `write`, and reads those at or below `read`. `own` is `write` where its
/// partition is read too, and else one that is always empty.
#[derive(Clone, Copy)]
struct Reach {
    read: u8,
    write: u8,
    own: u8,
}

/// The number of the partition that is always empty.
const NO_PARTITION: u8 = MOST_LABELS as u8;

/// Of each label a bit for each that flows to it.
type Below = [u32; MOST_LABELS];

impl Reach {
    fn reads_own(self) -> bool {
        self.own != NO_PARTITION
    }

    /// The partitions that are read beside that of `write`, a bit for each.
    fn others(self, below: &Below) -> u32 {
        below[self.read as usize % MOST_LABELS] & !(1 << self.write)
    }
}

struct Image {
    code: Vec<Instruction>,
}

struct Lowering<'p> {
    labelled: &'p Labelled<'p>,
    /// Whether accesses of all labels go to the partition of the lowest one.
    is_shared: bool,
    code: Vec<Instruction>,
}

fn lowered(labelled: &Labelled, is_shared: bool) -> Answer<Image> {
    let mut lowering = Lowering { labelled, is_shared, code: Vec::with_capacity(labelled.program.parts.len() + 3 * labelled.program.commands + 1) };
    lowering.list(&labelled.program.body);
    let bottom = labelled.program.lattice.bottom;
    lowering.push(Act::Halt, 0, 0, (bottom, bottom));
    if lowering.code.len() > MOST_INSTRUCTIONS {
        return Err(Stop::Line(7, format!("too long: image {}\n", lowering.code.len())));
    }
    Ok(Image { code: lowering.code })
}

impl Lowering<'_> {
    fn push(&mut self, act: Act, first: u32, value: i64, (read, write): (u8, u8)) {
        let lattice = &self.labelled.program.lattice;
        let (read, write) = if self.is_shared { (lattice.bottom, lattice.bottom) } else { (read, write) };
        let own = if lattice.flows(write, read) { write } else { NO_PARTITION };
        self.code.push(Instruction { act, reach: Reach { read, write, own }, first, value });
    }

    /// Fills in the place after the last instruction as a jump's target.
    fn land(&mut self, jump: usize) {
        self.code[jump].first = self.code.len() as u32;
    }

    fn array(&self, declaration: u32) -> (u32, u32) {
        let declaration = &self.labelled.program.declarations[declaration as usize];
        (declaration.first, declaration.length.unwrap_or(1))
    }

    fn expression(&mut self, expression: Expression, labels: (u8, u8)) {
        let labelled = self.labelled;
        for part in labelled.program.parts_of(expression) {
            let (act, first, value) = match *part {
                Part::Number(value) => (Act::Push, 0, value),
                Part::Variable { declaration, .. } => (Act::Load, self.array(declaration).0, 0),
                Part::Element { declaration, .. } => {
                    let (first, length) = self.array(declaration);
                    (Act::LoadElement, first, length as i64)
                }
                Part::Apply { operator, .. } => (operator.act(), 0, 0),
            };
            self.push(act, first, value, labels);
        }
    }

    fn list(&mut self, commands: &[Command]) {
        for command in commands {
            self.command(command);
        }
    }

    fn command(&mut self, command: &Command) {
        let labels = (command.read, command.write);
        if let Form::Put { index, .. } = command.form {
            self.expression(index, labels);
        }
        self.expression(command.value, labels);
        match &command.form {
            Form::Skip => self.push(Act::Nothing, 0, 0, labels),
            Form::Assign { to } => self.push(Act::Store, self.array(*to).0, 0, labels),
            Form::Put { to, .. } => {
                let (first, length) = self.array(*to);
                self.push(Act::StoreElement, first, length as i64, labels);
            }
            Form::Sleep => self.push(Act::Sleep, 0, 0, labels),
            Form::If { .. } | Form::While { .. } => self.branch(command, labels),
            Form::Mitigate { mark, body } => {
                let level = self.labelled.levels[*mark as usize];
                self.push(Act::Begin, level as u32, *mark as i64, labels);
                self.list(body);
                self.push(Act::End, 0, 0, labels);
            }
        }
    }

    fn branch(&mut self, command: &Command, labels: (u8, u8)) {
        let lattice = &self.labelled.program.lattice;
        let raised = (lattice.join(labels.0, command.guard), lattice.join(labels.1, command.guard));
        let branch = self.code.len();
        self.push(Act::JumpIfZero, 0, 0, labels);
        match &command.form {
            Form::If { yes, no } => {
                self.list(yes);
                let jump = self.code.len();
                self.push(Act::Jump, 0, 0, raised);
                self.land(branch);
                self.list(no);
                self.land(jump);
            }
            Form::While { body, .. } => {
                self.list(body);
                self.expression(command.value, raised);
                self.push(Act::JumpIfNot, branch as u32 + 1, 0, raised);
                self.land(branch);
            }
            _ => {}
        }
    }
}

/// Writes the text of an image.
fn image_text(labelled: &Labelled, image: &Image) -> Vec<u8> {
    let program = &labelled.program;
    let (owners, names) = (program.owners(), &program.lattice.names);
    let mut out = Vec::with_capacity(20 * image.code.len());
    for (number, Instruction { act, reach, first, value }) in image.code.iter().enumerate() {
        write_number(number as u64, &mut out);
        out.extend_from_slice(act.word().as_bytes());
        match *act {
            Act::Push => write_signed(*value, &mut out),
            Act::Load | Act::Store | Act::LoadElement | Act::StoreElement => {
                out.extend_from_slice(program.declarations[owners[*first as usize] as usize].name.as_bytes());
            }
            Act::JumpIfZero | Act::JumpIfNot | Act::Jump => write_number(*first as u64, &mut out),
            Act::Begin => {
                out.extend_from_slice(names[*first as usize].as_bytes());
                out.push(b' ');
                write_number(*value as u64, &mut out);
            }
            _ => {}
        }
        out.extend_from_slice(b" [");
        out.extend_from_slice(names[reach.read as usize].as_bytes());
        out.extend_from_slice(b", ");
        out.extend_from_slice(names[reach.write as usize].as_bytes());
        out.extend_from_slice(b"]\n");
    }
    out
}

// --- Certificates

/// The labels that a certificate tells of each command, in the order of the text: its program counter, its start and
/// its end.
struct Derivation<'p> {
    checker: Checker<'p>,
    nodes: &'p [u8],
    told: Vec<(u8, u8, u8)>,
}

impl Derivation<'_> {
    fn list(&mut self, commands: &[Command], counter: u8, mut start: u8) -> u8 {
        for command in commands {
            let place = self.told.len();
            self.told.push((counter, start, start));
            start = self.end(command, counter, start);
            self.told[place].2 = start;
        }
        start
    }

    fn end(&mut self, command: &Command, counter: u8, start: u8) -> u8 {
        let (value, _) = self.checker.labels_of(command);
        let after = self.checker.join(self.checker.join(start, value), command.read);
        let inner = self.checker.join(counter, value);
        match &command.form {
            Form::Assign { to } | Form::Put { to, .. } => self.checker.labels[*to as usize],
            Form::Skip | Form::Sleep => after,
            Form::If { yes, no } => {
                let end = self.list(yes, inner, after);
                let other = self.list(no, inner, after);
                self.checker.join(end, other)
            }
            Form::While { body, start } => {
                let end = self.nodes[*start as usize];
                self.list(body, inner, end);
                end
            }
            Form::Mitigate { body, .. } => {
                self.list(body, counter, after);
                after
            }
        }
    }
}

/// Writes the certificate of a program's least labelling.
fn certificate(labelled: &Labelled) -> Vec<u8> {
    let program = &labelled.program;
    let bottom = program.lattice.bottom;
    let checker = Checker { program, labels: &labelled.variables, counters: Vec::new() };
    let mut derivation = Derivation { checker, nodes: &labelled.nodes, told: Vec::with_capacity(program.commands) };
    derivation.list(&program.body, bottom, bottom);
    let mut out = Vec::with_capacity(60 * program.commands);
    out.extend_from_slice(b"certificate 1\n");
    for (declaration, &label) in program.declarations.iter().zip(&labelled.variables) {
        for part in ["var ", declaration.name, " ", program.lattice.name(label), "\n"] {
            out.extend_from_slice(part.as_bytes());
        }
    }
    certify_list(labelled, &program.body, &mut derivation.told.iter(), 0, &mut out);
    out
}

fn certify_list<'d>(
    labelled: &Labelled,
    commands: &[Command],
    told: &mut impl Iterator<Item = &'d (u8, u8, u8)>,
    mut number: u64,
    out: &mut Vec<u8>,
) -> u64 {
    let lattice = &labelled.program.lattice;
    for command in commands {
        let Some(&(counter, start, end)) = told.next() else {
            return number;
        };
        write_number(number, out);
        number += 1;
        out.push(b' ');
        out.extend_from_slice(rule_of(command).as_bytes());
        let labels =
            [(" pc ", counter), (" start ", start), (" er ", command.read), (" ew ", command.write), (" end ", end)];
        for (word, label) in labels {
            out.extend_from_slice(word.as_bytes());
            out.extend_from_slice(lattice.name(label).as_bytes());
        }
        if let Form::Mitigate { mark, .. } = command.form {
            out.extend_from_slice(b" level ");
            out.extend_from_slice(lattice.name(labelled.levels[mark as usize]).as_bytes());
        }
        out.push(b'\n');
        number = match &command.form {
            Form::If { yes, no } => {
                number = certify_list(labelled, yes, told, number, out);
                certify_list(labelled, no, told, number, out)
            }
            Form::While { body, .. } | Form::Mitigate { body, .. } => certify_list(labelled, body, told, number, out),
            _ => number,
        };
    }
    number
}

/// What the end of a list has to be: anything, this label, one that with the first gives the second, one below this.
#[derive(Clone, Copy)]
enum Fits {
    All,
    Is(u8),
    Joins(u8, u8),
    Below(u8),
}

/// Goes over the lines of a certificate; `number` is that of the line at hand.
struct Recheck<'p> {
    program: &'p Program<'p>,
    text: &'p [u8],
    at: usize,
    number: u64,
    command: u64,
}

impl<'p> Recheck<'p> {
    fn demand(&self, holds: bool) -> Answer<()> {
        if holds {
            return Ok(());
        }
        Err(Stop::Line(12, format!("rejected: line {}\n", self.number)))
    }

    /// The words of the next line.
    fn line(&mut self) -> Answer<std::slice::Split<'p, u8, impl FnMut(&u8) -> bool + use<>>> {
        self.number += 1;
        let rest = &self.text[self.at..];
        let end = rest.iter().position(|byte| *byte == b'\n');
        self.demand(end.is_some())?;
        let end = end.unwrap_or(0);
        self.at += end + 1;
        Ok(rest[..end].split(|byte| *byte == b' '))
    }

    fn word<'a>(&self, words: &mut impl Iterator<Item = &'a [u8]>, wanted: &[u8]) -> Answer<()> {
        self.demand(words.next() == Some(wanted))
    }

    fn label<'a>(&self, words: &mut impl Iterator<Item = &'a [u8]>) -> Answer<u8> {
        let word = words.next().unwrap_or(b"");
        let place = self.program.lattice.names.iter().position(|name| name.as_bytes() == word);
        self.demand(place.is_some())?;
        Ok(place.unwrap_or(0) as u8)
    }

    fn whole(&mut self) -> Answer<()> {
        let mut words = self.line()?;
        self.word(&mut words, b"certificate")?;
        self.word(&mut words, b"1")?;
        self.demand(words.next().is_none())?;
        let mut labels = Vec::with_capacity(self.program.declarations.len());
        for declaration in &self.program.declarations {
            let mut words = self.line()?;
            self.word(&mut words, b"var")?;
            self.word(&mut words, declaration.name.as_bytes())?;
            let label = self.label(&mut words)?;
            self.demand(words.next().is_none() && declaration.label.is_none_or(|written| written == label))?;
            labels.push(label);
        }
        let bottom = self.program.lattice.bottom;
        let checker = Checker { program: self.program, labels: &labels, counters: Vec::new() };
        self.list(&checker, &self.program.body, (bottom, bottom), Fits::All)?;
        self.number += 1;
        self.demand(self.at == self.text.len())
    }

    fn list(&mut self, checker: &Checker, commands: &[Command], start: (u8, u8), fits: Fits) -> Answer<u8> {
        let (counter, mut start) = start;
        for (place, command) in commands.iter().enumerate() {
            let fits = if place + 1 < commands.len() { Fits::All } else { fits };
            start = self.one(checker, command, (counter, start), fits)?;
        }
        Ok(start)
    }

    fn one(&mut self, checker: &Checker, command: &Command, (counter, start): (u8, u8), fits: Fits) -> Answer<u8> {
        let lattice = &self.program.lattice;
        let mut words = self.line()?;
        let mut digits = Vec::with_capacity(20);
        write_number(self.command, &mut digits);
        self.command += 1;
        self.word(&mut words, &digits)?;
        self.word(&mut words, rule_of(command).as_bytes())?;
        let mut labels = [0; 5];
        for (label, word) in labels.iter_mut().zip([&b"pc"[..], b"start", b"er", b"ew", b"end"]) {
            self.word(&mut words, word)?;
            *label = self.label(&mut words)?;
        }
        let mut level = None;
        if let Form::Mitigate { .. } = command.form {
            self.word(&mut words, b"level")?;
            level = Some(self.label(&mut words)?);
        }
        self.demand(words.next().is_none())?;
        let [counter_told, start_told, read, write, end] = labels;
        self.demand(counter_told == counter && start_told == start)?;
        let (value, inside) = checker.labels_of(command);
        let bound = lattice.join(counter, inside);
        let marks = if command.has_marks { (command.read, command.write) } else { (bound, bound) };
        self.demand((read, write) == marks && lattice.flows(bound, write))?;
        self.demand(match fits {
            Fits::All => true,
            Fits::Is(label) => end == label,
            Fits::Joins(other, label) => lattice.join(other, end) == label,
            Fits::Below(label) => lattice.flows(end, label),
        })?;
        let (after, inner) = (lattice.join(lattice.join(start, value), read), lattice.join(counter, value));
        match &command.form {
            Form::Skip | Form::Sleep => self.demand(end == after)?,
            Form::Assign { to } | Form::Put { to, .. } => {
                let label = checker.labels[*to as usize];
                self.demand(lattice.flows(lattice.join(after, bound), label) && end == label)?;
            }
            Form::If { yes, no } => {
                let first = self.list(checker, yes, (inner, after), Fits::All)?;
                self.list(checker, no, (inner, after), Fits::Joins(first, end))?;
            }
            Form::While { body, .. } => {
                self.demand(lattice.flows(after, end))?;
                self.list(checker, body, (inner, end), Fits::Is(end))?;
            }
            Form::Mitigate { mark, body } => {
                let level = level.unwrap_or(0);
                let written = self.program.levels[*mark as usize];
                self.demand(end == after && written.is_none_or(|written| written == level))?;
                self.list(checker, body, (counter, after), Fits::Below(level))?;
            }
        }
        Ok(end)
    }
}

// --- Caches

const FLAT: u8 = 0;
const PART: u8 = 1;
const PART2: u8 = 2;
const MACHINE: u8 = 3;
const FIRST_SETS: usize = 8;
const SECOND_SETS: usize = 32;
const NO_TAG: u32 = u32::MAX;
const PAGE_MISS: u64 = 20;
const CODE_MISS: u64 = 8;
const DATA_MISS: u64 = 12;
const SECOND_MISS: u64 = 30;

/// What runs are made in: the name of an environment, or a machine.
struct Setting {
    kind: u8,
    hardware: Hardware,
}

/// A machine from a file: its banks at the places, in the order of `PLACES`, and whether all labels share them.
#[derive(Default)]
struct Hardware {
    banks: [Option<Bank>; 4],
    is_shared: bool,
}

#[derive(Clone, Copy)]
struct Bank {
    sets: u32,
    ways: u32,
    bytes: u32,
    hit: u64,
    miss: u64,
    /// Whether the first tag that came goes first, and not the one that was touched the longest time ago.
    is_first_come: bool,
}

/// A bank with the tags of all labels' partitions, each set's from front to back. A tag may be any `u32`.
struct Held {
    bank: Bank,
    bytes: Divisor,
    sets: Divisor,
    tags: Vec<u64>,
}

/// A number by which much is divided: most are powers of two.
struct Divisor {
    number: u32,
    exponent: Option<u32>,
}

impl Divisor {
    fn new(number: u32) -> Self {
        Divisor { number, exponent: number.is_power_of_two().then_some(number.trailing_zeros()) }
    }

    #[inline(always)]
    fn quotient(&self, of: u32) -> u32 {
        self.exponent.map_or_else(|| of / self.number, |exponent| of >> exponent)
    }

    #[inline(always)]
    fn rest(&self, of: u32) -> u32 {
        if self.exponent.is_some() { of & (self.number - 1) } else { of % self.number }
    }
}

impl Held {
    fn new(bank: Bank, labels: usize) -> Self {
        let (bytes, sets) = (Divisor::new(bank.bytes), Divisor::new(bank.sets));
        Held { bank, bytes, sets, tags: vec![u64::MAX; labels * (bank.sets * bank.ways) as usize] }
    }

    /// The place of the first tag of a label's set.
    fn first(&self, label: usize, set: u32) -> usize {
        (label * self.bank.sets as usize + set as usize) * self.bank.ways as usize
    }

    /// Whether a partition that may be read holds the tag of an address; the write label's own gets it at its front, where
    /// the rule does not leave it in its place.
    fn touch(&mut self, address: u32, reach: Reach, below: &Below) -> bool {
        let tag = self.bytes.quotient(address);
        let (set, ways, tag) = (self.sets.rest(tag), self.bank.ways as usize, tag as u64);
        let first = self.first(reach.write as usize, set);
        let mut carried = tag;
        let own = &mut self.tags[first..first + ways];
        if !self.bank.is_first_come || !own.contains(&tag) {
            for held in own {
                std::mem::swap(held, &mut carried);
                if carried == tag {
                    break;
                }
            }
        }
        let mut is_held = carried == tag && reach.reads_own();
        let mut others = reach.others(below);
        while !is_held && others != 0 {
            let first = self.first(others.trailing_zeros() as usize, set);
            is_held = self.tags[first..first + ways].contains(&tag);
            others &= others - 1;
        }
        is_held
    }
}

/// Whether an address is held where there is a bank, and what it costs to look.
#[inline(always)]
fn looked_up(held: &mut Option<Held>, address: u32, reach: Reach, below: &Below) -> (bool, u64) {
    let Some(held) = held else {
        return (false, 0);
    };
    let is_held = held.touch(address, reach, below);
    (is_held, if is_held { held.bank.hit } else { held.bank.miss })
}

/// The partitions of all labels, those of one place in one list. A set has its tags from front to back. Those of a machine
/// from a file stand in `held`, in the order of `PLACES`.
struct Caches {
    below: Below,
    held: [Option<Held>; 4],
    page: [[u32; 4]; PARTITIONS],
    code: [[u32; 2]; PARTITIONS * FIRST_SETS],
    data: [[u32; 2]; PARTITIONS * FIRST_SETS],
    second: [[u32; 4]; PARTITIONS * SECOND_SETS],
}

/// A power of two above the number of the empty partition.
const PARTITIONS: usize = 64;

impl Caches {
    fn new(setting: &Setting, lattice: &Lattice) -> Self {
        let (labels, mut below) = (lattice.names.len(), [0; MOST_LABELS]);
        below[..labels].copy_from_slice(&lattice.below);
        Caches {
            below,
            held: setting.hardware.banks.map(|bank| bank.map(|bank| Held::new(bank, labels))),
            page: [[NO_TAG; 4]; PARTITIONS],
            code: [[NO_TAG; 2]; PARTITIONS * FIRST_SETS],
            data: [[NO_TAG; 2]; PARTITIONS * FIRST_SETS],
            second: [[NO_TAG; 4]; PARTITIONS * SECOND_SETS],
        }
    }

    /// Makes the touches of a start.
    fn warm(&mut self, setting: &Setting, bottom: u8, touches: &[Touch]) {
        for &Touch { place, label, address } in touches {
            let label = if setting.hardware.is_shared { bottom } else { label };
            let (reach, below) = (Reach { read: label, write: label, own: label }, &self.below);
            match (place, setting.kind) {
                (_, MACHINE) => {
                    if let Some(held) = &mut self.held[place as usize] {
                        held.touch(address, reach, below);
                    }
                }
                (_, FLAT) | (Place::Second, PART) => {}
                (Place::Page, _) => _ = touch::<1, 4>(&mut self.page, address / 1024, reach, below),
                (Place::Code, _) => _ = touch::<FIRST_SETS, 2>(&mut self.code, address / 32, reach, below),
                (Place::Data, _) => _ = touch::<FIRST_SETS, 2>(&mut self.data, address / 32, reach, below),
                (Place::Second, _) => _ = touch::<SECOND_SETS, 4>(&mut self.second, address / 32, reach, below),
            }
        }
    }

    /// Whether the partition of a label holds the same as another's.
    fn is_same(&self, other: &Caches, place: Place, label: u8) -> bool {
        let label = label as usize;
        if let (Some(own), Some(others)) = (&self.held[place as usize], &other.held[place as usize]) {
            let (first, end) = (own.first(label, 0), own.first(label + 1, 0));
            return own.tags[first..end] == others.tags[first..end];
        }
        let (first, second) = (label * FIRST_SETS, label * SECOND_SETS);
        match place {
            Place::Page => self.page[label] == other.page[label],
            Place::Code => self.code[first..first + FIRST_SETS] == other.code[first..first + FIRST_SETS],
            Place::Data => self.data[first..first + FIRST_SETS] == other.data[first..first + FIRST_SETS],
            Place::Second => self.second[second..second + SECOND_SETS] == other.second[second..second + SECOND_SETS],
        }
    }

    fn clear(&mut self, labels: usize) {
        self.page[..labels].fill([NO_TAG; 4]);
        self.code[..labels * FIRST_SETS].fill([NO_TAG; 2]);
        self.data[..labels * FIRST_SETS].fill([NO_TAG; 2]);
        self.second[..labels * SECOND_SETS].fill([NO_TAG; 4]);
        self.held.iter_mut().flatten().for_each(|held| held.tags.fill(u64::MAX));
    }

    /// What an access costs on a machine from a file.
    fn access(&mut self, place: Place, address: u32, reach: Reach) -> u64 {
        let (_, page) = looked_up(&mut self.held[Place::Page as usize], address, reach, &self.below);
        let (is_near, line) = looked_up(&mut self.held[place as usize], address, reach, &self.below);
        let (_, second) = looked_up(&mut self.held[Place::Second as usize], address, reach, &self.below);
        page + line + if is_near { 0 } else { second }
    }

    #[inline(always)]
    fn fetch<const KIND: u8>(&mut self, at: usize, reach: Reach) -> u64 {
        let address = 4 * at as u32;
        if KIND == FLAT || self.is_near::<KIND, true>(address, reach) {
            return 0;
        }
        self.cost::<KIND, true>(address, reach)
    }

    #[inline(always)]
    fn datum<const KIND: u8>(&mut self, variable: usize, reach: Reach) -> u64 {
        let address = (1 << 20) + 8 * variable as u32;
        if KIND == FLAT || self.is_near::<KIND, false>(address, reach) {
            return 0;
        }
        self.cost::<KIND, false>(address, reach)
    }

    /// Whether the tags of an access stand in the first two ways of the write label's own partitions, and may be read there: they
    /// come to the front, and the access costs nothing. Where not, those that were found have come to the front.
    #[inline(always)]
    fn is_near<const KIND: u8, const IS_CODE: bool>(&mut self, address: u32, reach: Reach) -> bool {
        if KIND == MACHINE {
            return false;
        }
        let line = address / 32;
        let first = if IS_CODE { &mut self.code } else { &mut self.data };
        is_among_two::<1, 4>(&mut self.page, address / 1024, reach)
            && is_among_two::<FIRST_SETS, 2>(first, line, reach)
            && (KIND != PART2 || is_among_two::<SECOND_SETS, 4>(&mut self.second, line, reach))
    }

    /// What any access costs.
    #[cold]
    #[inline(never)]
    fn cost<const KIND: u8, const IS_CODE: bool>(&mut self, address: u32, reach: Reach) -> u64 {
        if KIND == MACHINE {
            return self.access(if IS_CODE { Place::Code } else { Place::Data }, address, reach);
        }
        let (line, miss) = (address / 32, if IS_CODE { CODE_MISS } else { DATA_MISS });
        let first = if IS_CODE { &mut self.code } else { &mut self.data };
        let page = touch::<1, 4>(&mut self.page, address / 1024, reach, &self.below);
        let first = touch::<FIRST_SETS, 2>(first, line, reach, &self.below);
        let mut cost = if page { 0 } else { PAGE_MISS } + if first { 0 } else { miss };
        if KIND == PART2 {
            let second = touch::<SECOND_SETS, 4>(&mut self.second, line, reach, &self.below);
            cost += if first || second { 0 } else { SECOND_MISS };
        }
        cost
    }
}

/// Whether the tag stands in one of the first two ways of its set, where it may be read: it comes to the front.
#[inline(always)]
fn is_among_two<const SETS: usize, const WAYS: usize>(place: &mut [[u32; WAYS]], tag: u32, reach: Reach) -> bool {
    let own = &mut place[reach.own as usize % PARTITIONS * SETS + tag as usize % SETS];
    if own[0] == tag {
        return true;
    }
    if own[1] != tag {
        return false;
    }
    own.swap(0, 1);
    true
}

/// Whether a partition that may be read holds the tag; the write label's own gets it at its front.
fn touch<const SETS: usize, const WAYS: usize>(place: &mut [[u32; WAYS]], tag: u32, reach: Reach, below: &Below) -> bool {
    let set = tag as usize % SETS;
    let own = &mut place[reach.write as usize % PARTITIONS * SETS + set];
    let mut carried = tag;
    for held in own {
        std::mem::swap(held, &mut carried);
        if carried == tag {
            break;
        }
    }
    carried == tag && reach.reads_own() || is_elsewhere::<SETS, WAYS>(place, set, tag, reach.others(below))
}

/// Whether the set of a partition of one of these labels holds the tag.
fn is_elsewhere<const SETS: usize, const WAYS: usize>(
    place: &[[u32; WAYS]],
    set: usize,
    tag: u32,
    mut labels: u32,
) -> bool {
    while labels != 0 {
        let label = labels.trailing_zeros() as usize;
        if place[label * SETS + set].contains(&tag) {
            return true;
        }
        labels &= labels - 1;
    }
    false
}

// --- The machine

struct Opened {
    estimate: i64,
    level: u8,
    mark: u32,
    begun: u64,
}

impl Opened {
    /// The prediction by a miss count.
    fn predicts(&self, misses: u32) -> u128 {
        (self.estimate.max(1) as u128) << misses
    }
}

/// All that a run changes; it is used for one run after the other. There are fewer variables, and of an expression with an
/// index fewer operands, than have room.
struct Machine {
    memory: Box<[i64; VARIABLES]>,
    operands: Box<[i64; OPERANDS]>,
    labels: usize,
    bottom: u8,
    caches: Box<Caches>,
    opened: Vec<Opened>,
    misses: [u32; MOST_LABELS],
    /// The clock after the last step that ended in time.
    clock: u64,
    has_halted: bool,
}

/// Powers of two, so that a number below them wants no test.
const VARIABLES: usize = 4_096;
const OPERANDS: usize = 1_024;

/// What a run tells: a variable, its new value and its cycle; each mitigation that began, with the miss count then; and each
/// that ended, with the cycle at which its body did, the miss counts before and after, and its cycle.
trait Listener {
    fn assigned(&mut self, variable: usize, value: i64, cycle: u64);
    fn began(&mut self, _opened: &Opened, _misses: u32) {}
    fn ended(&mut self, _opened: &Opened, _worked_to: u64, _misses: (u32, u32), _cycle: u64) {}
}

/// What a product costs beyond 1.
#[inline(always)]
fn product_cost(left: i64, right: i64) -> u64 {
    let is_small = |value: i64| value == value as i16 as i64;
    if is_small(left) && is_small(right) { 1 } else { 4 }
}

#[inline(always)]
fn quotient(left: i64, right: i64) -> i64 {
    if right == 0 { 0 } else { left.wrapping_div(right) }
}

#[inline(always)]
fn remainder(left: i64, right: i64) -> i64 {
    if right == 0 { left } else { left.wrapping_rem(right) }
}

/// The value of an operator.
#[inline(always)]
fn applied(operator: Operator, left: i64, right: i64) -> i64 {
    match operator {
        Operator::Add => left.wrapping_add(right),
        Operator::Subtract => left.wrapping_sub(right),
        Operator::Multiply => left.wrapping_mul(right),
        Operator::Divide => quotient(left, right),
        Operator::Remainder => remainder(left, right),
        Operator::Equal => (left == right) as i64,
        Operator::Different => (left != right) as i64,
        Operator::Less => (left < right) as i64,
        Operator::AtMost => (left <= right) as i64,
        Operator::Greater => (left > right) as i64,
        Operator::AtLeast => (left >= right) as i64,
    }
}

fn chosen(first: u32, length: u32, index: i64) -> usize {
    first as usize + index.rem_euclid(length as i64) as usize
}

impl Machine {
    fn new(program: &Program, setting: &Setting) -> Self {
        Machine {
            memory: Box::new([0; VARIABLES]),
            operands: Box::new([0; OPERANDS]),
            labels: program.lattice.names.len(),
            bottom: program.lattice.bottom,
            caches: Box::new(Caches::new(setting, &program.lattice)),
            opened: Vec::new(),
            misses: [0; MOST_LABELS],
            clock: 0,
            has_halted: false,
        }
    }

    /// Runs an image from a start to a limit.
    fn run(&mut self, setting: &Setting, code: &[Instruction], start: &Start, limit: u64, listener: &mut impl Listener) {
        self.memory[..start.memory.len()].copy_from_slice(&start.memory);
        self.caches.clear(self.labels);
        self.caches.warm(setting, self.bottom, &start.touches);
        self.opened.clear();
        self.misses = [0; MOST_LABELS];
        match setting.kind {
            FLAT => self.steps::<FLAT>(code, limit, listener),
            PART => self.steps::<PART>(code, limit, listener),
            MACHINE => self.steps::<MACHINE>(code, limit, listener),
            _ => self.steps::<PART2>(code, limit, listener),
        }
    }

    /// The last operand stands in `last`, and the others below `top`.
    #[inline(never)]
    fn steps<const KIND: u8>(&mut self, code: &[Instruction], limit: u64, listener: &mut impl Listener) {
        let (memory, operands, caches) = (&mut *self.memory, &mut *self.operands, &mut *self.caches);
        let (mut at, mut top, mut last, mut now) = (0, 0usize, 0i64, 0);
        macro_rules! pop {
            () => {{
                top -= 1;
                operands[top % OPERANDS]
            }};
        }
        macro_rules! apply {
            ($left:ident, $value:expr) => {{
                let $left = pop!();
                last = $value;
            }};
        }
        self.has_halted = loop {
            let Instruction { act, reach, first, value } = code[at];
            let mut clock = now + 1 + caches.fetch::<KIND>(at, reach);
            at += 1;
            match act {
                Act::Push => {
                    operands[top % OPERANDS] = last;
                    top += 1;
                    last = value;
                }
                Act::Load => {
                    clock += caches.datum::<KIND>(first as usize, reach);
                    operands[top % OPERANDS] = last;
                    top += 1;
                    last = memory[first as usize % VARIABLES];
                }
                Act::Store => {
                    clock += caches.datum::<KIND>(first as usize, reach);
                    if clock > limit {
                        break false;
                    }
                    memory[first as usize % VARIABLES] = last;
                    listener.assigned(first as usize, last, clock);
                    last = pop!();
                }
                Act::LoadElement => {
                    let variable = chosen(first, value as u32, last);
                    clock += caches.datum::<KIND>(variable, reach);
                    last = memory[variable % VARIABLES];
                }
                Act::StoreElement => {
                    let variable = chosen(first, value as u32, pop!());
                    clock += caches.datum::<KIND>(variable, reach);
                    if clock > limit {
                        break false;
                    }
                    memory[variable % VARIABLES] = last;
                    listener.assigned(variable, last, clock);
                    last = pop!();
                }
                Act::Add => apply!(left, left.wrapping_add(last)),
                Act::Subtract => apply!(left, left.wrapping_sub(last)),
                Act::Multiply => {
                    let left = pop!();
                    clock += product_cost(left, last);
                    last = left.wrapping_mul(last);
                }
                Act::Divide => {
                    clock += 16;
                    apply!(left, quotient(left, last));
                }
                Act::Remainder => {
                    clock += 16;
                    apply!(left, remainder(left, last));
                }
                Act::Equal => apply!(left, (left == last) as i64),
                Act::Different => apply!(left, (left != last) as i64),
                Act::Less => apply!(left, (left < last) as i64),
                Act::AtMost => apply!(left, (left <= last) as i64),
                Act::Greater => apply!(left, (left > last) as i64),
                Act::AtLeast => apply!(left, (left >= last) as i64),
                Act::JumpIfZero => {
                    if last == 0 {
                        at = first as usize;
                    }
                    last = pop!();
                }
                Act::JumpIfNot => {
                    if last != 0 {
                        at = first as usize;
                    }
                    last = pop!();
                }
                Act::Jump => at = first as usize,
                Act::Sleep => {
                    clock += last.max(0) as u64;
                    last = pop!();
                }
                Act::Begin => {
                    if clock > limit {
                        break false;
                    }
                    let opened = Opened { estimate: last, level: first as u8, mark: value as u32, begun: clock };
                    last = pop!();
                    listener.began(&opened, self.misses[first as usize]);
                    self.opened.push(opened);
                }
                Act::End => match self.opened.pop() {
                    Some(opened) if clock <= limit => {
                        let (worked_to, before) = (clock, self.misses[opened.level as usize]);
                        clock = settled(&opened, &mut self.misses, clock);
                        if clock > limit {
                            break false;
                        }
                        listener.ended(&opened, worked_to, (before, self.misses[opened.level as usize]), clock);
                    }
                    _ => break false,
                },
                Act::Nothing => {}
                Act::Halt => {
                    if clock <= limit {
                        now = clock;
                    }
                    break clock <= limit;
                }
            }
            if clock > limit {
                break false;
            }
            now = clock;
        };
        self.clock = now;
    }
}

/// The clock after a mitigation that ends at `clock`; the miss counter of its level rises as far as it has to. A clock
/// above every limit stands for all such clocks.
fn settled(opened: &Opened, misses: &mut [u32; MOST_LABELS], clock: u64) -> u64 {
    let count = &mut misses[opened.level as usize];
    while (clock - opened.begun) as u128 >= opened.predicts(*count) {
        *count += 1;
    }
    (opened.begun as u128 + opened.predicts(*count)).min(2 * GREATEST_BUDGET as u128) as u64
}

// --- Start files

#[derive(Clone, Copy, PartialEq)]
enum Place {
    Page,
    Code,
    Data,
    Second,
}

const PLACES: [(&str, Place); 4] =
    [("page", Place::Page), ("code", Place::Code), ("data", Place::Data), ("second", Place::Second)];

struct Touch {
    place: Place,
    label: u8,
    address: u32,
}

struct Start {
    memory: Vec<i64>,
    touches: Vec<Touch>,
}

/// A value of a TOML document; `Other` is one that no file wants.
enum Value<'t> {
    Integer(i64),
    Text(&'t str),
    Array(Vec<Value<'t>>),
    Table(Table<'t>),
    Other,
}

type Table<'t> = HashMap<&'t str, Value<'t>, BuildHasherDefault<NameHasher>>;

/// Goes over the text of a TOML document.
struct Toml<'t> {
    text: &'t str,
    at: usize,
}

impl<'t> Toml<'t> {
    fn fault<T>(&self) -> Answer<T> {
        plain(format!("byte {} is not as this reader of TOML knows it", self.at))
    }

    fn byte(&self) -> u8 {
        self.text.as_bytes().get(self.at).copied().unwrap_or(0)
    }

    fn spaces(&mut self) {
        while matches!(self.byte(), b' ' | b'\t') {
            self.at += 1;
        }
    }

    /// Goes past white space, line ends and comments.
    fn blank(&mut self) {
        loop {
            self.spaces();
            match self.byte() {
                b'\n' | b'\r' => self.at += 1,
                b'#' => {
                    while self.at < self.text.len() && self.byte() != b'\n' {
                        self.at += 1;
                    }
                }
                _ => return,
            }
        }
    }

    fn takes(&mut self, sign: u8) -> bool {
        let is_there = self.byte() == sign;
        self.at += is_there as usize;
        is_there
    }

    fn want(&mut self, sign: u8) -> Answer<()> {
        if self.takes(sign) { Ok(()) } else { self.fault() }
    }

    /// Nothing more but a comment stands on the line.
    fn line_end(&mut self) -> Answer<()> {
        self.spaces();
        if self.at == self.text.len() || matches!(self.byte(), b'\n' | b'\r' | b'#') { Ok(()) } else { self.fault() }
    }

    fn word(&mut self) -> &'t str {
        let first = self.at;
        while self.byte().is_ascii_alphanumeric() || matches!(self.byte(), b'_' | b'-' | b'+') {
            self.at += 1;
        }
        &self.text[first..self.at]
    }

    fn quoted(&mut self) -> Answer<&'t str> {
        let quote = self.byte();
        self.at += 1;
        let first = self.at;
        while self.byte() != quote {
            if self.byte() < b' ' || self.byte() == b'\\' {
                return self.fault();
            }
            self.at += 1;
        }
        self.at += 1;
        Ok(&self.text[first..self.at - 1])
    }

    fn key(&mut self) -> Answer<&'t str> {
        if matches!(self.byte(), b'"' | b'\'') {
            return self.quoted();
        }
        match self.word() {
            "" => self.fault(),
            word if word.contains('+') => self.fault(),
            word => Ok(word),
        }
    }

    fn value(&mut self) -> Answer<Value<'t>> {
        match self.byte() {
            b'"' | b'\'' => Ok(Value::Text(self.quoted()?)),
            b'[' => self.array(),
            b'{' => self.inline(),
            _ => self.number(),
        }
    }

    fn number(&mut self) -> Answer<Value<'t>> {
        let word = self.word();
        if word == "true" || word == "false" {
            return Ok(Value::Other);
        }
        let digits = word.trim_start_matches(['-', '+']);
        let is_plain = !digits.is_empty() && digits.bytes().all(|byte| byte.is_ascii_digit());
        if !is_plain || digits.len() > 1 && digits.starts_with('0') || word.len() > digits.len() + 1 || self.byte() == b'.' {
            return self.fault();
        }
        match word.parse() {
            Ok(number) => Ok(Value::Integer(number)),
            Err(_) => self.fault(),
        }
    }

    fn array(&mut self) -> Answer<Value<'t>> {
        let mut found = Vec::new();
        self.want(b'[')?;
        self.blank();
        while !self.takes(b']') {
            found.push(self.value()?);
            self.blank();
            if !self.takes(b',') {
                self.want(b']')?;
                break;
            }
            self.blank();
        }
        Ok(Value::Array(found))
    }

    fn inline(&mut self) -> Answer<Value<'t>> {
        let mut table = Table::default();
        self.want(b'{')?;
        self.spaces();
        if self.takes(b'}') {
            return Ok(Value::Table(table));
        }
        loop {
            self.spaces();
            self.entry(&mut table)?;
            self.spaces();
            if !self.takes(b',') {
                self.want(b'}')?;
                return Ok(Value::Table(table));
            }
        }
    }

    fn entry(&mut self, table: &mut Table<'t>) -> Answer<()> {
        let key = self.key()?;
        self.spaces();
        self.want(b'=')?;
        self.spaces();
        let value = self.value()?;
        if table.insert(key, value).is_some() { self.fault() } else { Ok(()) }
    }

    /// The entries up to the next head of a table.
    fn entries(&mut self, table: &mut Table<'t>) -> Answer<()> {
        self.blank();
        while self.at < self.text.len() && self.byte() != b'[' {
            self.entry(table)?;
            self.line_end()?;
            self.blank();
        }
        Ok(())
    }

    /// A document whose heads of tables are all of one name, as `[[run]]`.
    fn document(&mut self) -> Answer<Table<'t>> {
        let (mut top, mut name, mut runs) = (Table::default(), None, Vec::new());
        self.entries(&mut top)?;
        while self.takes(b'[') {
            self.want(b'[')?;
            let key = self.key()?;
            self.want(b']')?;
            self.want(b']')?;
            self.line_end()?;
            if *name.get_or_insert(key) != key {
                return self.fault();
            }
            let mut run = Table::default();
            self.entries(&mut run)?;
            runs.push(Value::Table(run));
        }
        match name {
            Some(name) if top.insert(name, Value::Array(runs)).is_some() => self.fault(),
            _ => Ok(top),
        }
    }
}

fn refused<T>(what: String) -> Answer<T> {
    Err(Stop::Line(3, format!("starts: {what}\n")))
}

/// Reads a file that has nothing but a version and runs with values, in one pass; None for any other file, which the reader
/// of TOML gets then, and for one with a fault.
struct Quick<'t, 'p> {
    text: &'t [u8],
    at: usize,
    version: u32,
    program: &'p Program<'p>,
    /// Of each declaration the run that gave it a value last.
    given: Vec<usize>,
}

impl Quick<'_, '_> {
    fn byte(&self) -> u8 {
        self.text.get(self.at).copied().unwrap_or(0)
    }

    fn spaces(&mut self) {
        while self.byte() == b' ' {
            self.at += 1;
        }
    }

    fn blank(&mut self) {
        while matches!(self.byte(), b' ' | b'\n') {
            self.at += 1;
        }
    }

    fn takes(&mut self, word: &[u8]) -> Option<()> {
        let is_there = self.text[self.at..].starts_with(word);
        self.at += if is_there { word.len() } else { 0 };
        is_there.then_some(())
    }

    fn number(&mut self) -> Option<i64> {
        let is_negative = self.takes(b"-").is_some();
        let (first, mut value) = (self.at, 0u64);
        while let digit @ b'0'..=b'9' = self.byte() {
            value = value.wrapping_mul(10).wrapping_add((digit - b'0') as u64);
            self.at += 1;
        }
        let count = self.at - first;
        let is_plain = matches!(count, 1..=18) && (count == 1 || self.text[first] != b'0');
        let is_ended = matches!(self.byte(), b' ' | b',' | b'}' | b']' | b'\n');
        (is_plain && is_ended).then_some(if is_negative { -(value as i64) } else { value as i64 })
    }

    /// The declaration whose name stands here: mostly it is the one after that before.
    fn name(&mut self, guess: usize) -> Option<usize> {
        let rest = &self.text[self.at..];
        let is_part = |byte: &u8| byte.is_ascii_alphanumeric() || matches!(byte, b'_' | b'-');
        if let Some(declaration) = self.program.declarations.get(guess) {
            let length = declaration.name.len();
            if rest.starts_with(declaration.name.as_bytes()) && !rest.get(length).is_some_and(is_part) {
                self.at += length;
                return Some(guess);
            }
        }
        let length = rest.iter().take_while(|byte| is_part(byte)).count();
        self.at += length;
        let name = std::str::from_utf8(&rest[..length]).ok()?;
        self.program.numbers.get(name).map(|number| *number as usize)
    }

    fn array(&mut self, values: &mut [i64]) -> Option<()> {
        self.takes(b"[")?;
        self.blank();
        let mut place = 0;
        while self.takes(b"]").is_none() {
            *values.get_mut(place)? = self.number()?;
            place += 1;
            self.blank();
            if self.takes(b",").is_none() {
                return self.takes(b"]");
            }
            self.blank();
        }
        Some(())
    }

    fn memory(&mut self, run: usize) -> Option<Vec<i64>> {
        let mut memory = vec![0; self.program.elements];
        self.takes(b"memory = {")?;
        self.spaces();
        let mut guess = 0;
        if self.takes(b"}").is_some() {
            return Some(memory);
        }
        loop {
            let number = self.name(guess)?;
            guess = number + 1;
            if std::mem::replace(&mut self.given[number], run) == run {
                return None;
            }
            self.spaces();
            self.takes(b"=")?;
            self.spaces();
            let declaration = &self.program.declarations[number];
            let first = declaration.first as usize;
            match declaration.length {
                None => memory[first] = self.number()?,
                Some(length) if self.version == 2 => self.array(&mut memory[first..first + length as usize])?,
                Some(_) => return None,
            }
            self.spaces();
            if self.takes(b",").is_none() {
                self.takes(b"}")?;
                return Some(memory);
            }
            self.spaces();
        }
    }

    fn starts(&mut self) -> Option<Vec<Start>> {
        self.blank();
        if self.takes(b"version = ").is_some() {
            self.version = u32::try_from(self.number()?).ok().filter(|version| matches!(version, 1 | 2))?;
            self.takes(b"\n")?;
        }
        let mut starts = Vec::new();
        self.blank();
        while self.at < self.text.len() {
            self.takes(b"[[run]]\n")?;
            self.blank();
            let run = starts.len() + 1;
            let is_empty = self.at == self.text.len() || self.byte() == b'[';
            let memory = if is_empty { vec![0; self.program.elements] } else { self.memory(run)? };
            if !is_empty && self.at < self.text.len() {
                self.takes(b"\n")?;
            }
            starts.push(Start { memory, touches: Vec::new() });
            self.blank();
        }
        matches!(starts.len(), 1..=MOST_RUNS).then_some(starts)
    }
}

fn starts_of(text: &str, program: &Program, takes_spaces: bool) -> Answer<Vec<Start>> {
    let given = vec![0; program.declarations.len()];
    if let Some(starts) = (Quick { text: text.as_bytes(), at: 0, version: 1, program, given }).starts() {
        return Ok(starts);
    }
    let document = Toml { text, at: 0 }.document()?;
    let version = match document.get("version") {
        None | Some(Value::Integer(1)) => 1,
        Some(Value::Integer(2)) => 2,
        Some(Value::Integer(3)) if takes_spaces => return plain("a space of starts is left out"),
        Some(_) => return refused("version".into()),
    };
    if document.keys().any(|key| !matches!(*key, "version" | "run")) {
        return refused("run 0: unknown key".into());
    }
    match document.get("run") {
        Some(Value::Array(runs)) if runs.len() > MOST_RUNS => refused(format!("too many runs: {}", runs.len())),
        Some(Value::Array(runs)) if !runs.is_empty() => {
            let numbered = runs.iter().zip(1..);
            numbered.map(|(run, number)| start_of(run, number, version, program)).collect()
        }
        _ => refused("no runs".into()),
    }
}

fn start_of(run: &Value, number: usize, version: u32, program: &Program) -> Answer<Start> {
    let unknown = |_: &&str| refused(format!("run {number}: unknown key"));
    let Value::Table(run) = run else {
        return unknown(&"");
    };
    if let Some(key) = run.keys().find(|key| !matches!(**key, "memory" | "touch")) {
        return unknown(key);
    }
    let mut memory = vec![0; program.elements];
    match run.get("memory") {
        None => {}
        Some(Value::Table(given)) => {
            let is_known = |key: &&&str| match program.numbers.get(**key) {
                Some(declaration) => version == 2 || program.declarations[*declaration as usize].length.is_none(),
                None => false,
            };
            if let Some(key) = given.keys().find(|key| !is_known(key)) {
                return unknown(key);
            }
            if !given.iter().all(|(name, value)| is_put(program, &mut memory, name, value)) {
                return refused(format!("run {number}: not a number"));
            }
        }
        Some(_) => return refused(format!("run {number}: not a number")),
    }
    let touches = match run.get("touch") {
        None => Some(Vec::new()),
        Some(Value::Array(touches)) => touches.iter().map(|touch| touch_of(touch, version, program)).collect(),
        Some(_) => None,
    };
    match touches {
        Some(touches) => Ok(Start { memory, touches }),
        None => refused(format!("run {number}: bad touch")),
    }
}

/// Puts the value of a declaration into a memory, where it is one.
fn is_put(program: &Program, memory: &mut [i64], name: &str, value: &Value) -> bool {
    let declaration = &program.declarations[program.numbers[name] as usize];
    let first = declaration.first as usize;
    match (declaration.length, value) {
        (None, Value::Integer(number)) => memory[first] = *number,
        (Some(length), Value::Array(values)) if values.len() <= length as usize => {
            for (place, value) in values.iter().enumerate() {
                let Value::Integer(number) = value else {
                    return false;
                };
                memory[first + place] = *number;
            }
        }
        _ => return false,
    }
    true
}

fn touch_of(touch: &Value, version: u32, program: &Program) -> Option<Touch> {
    let Value::Table(touch) = touch else {
        return None;
    };
    let (Some(Value::Text(place)), Some(Value::Text(label)), Some(Value::Integer(address)), 3) =
        (touch.get("place"), touch.get("label"), touch.get("address"), touch.len())
    else {
        return None;
    };
    let place = PLACES.iter().find(|(known, _)| known == place).map(|(_, place)| *place)?;
    let touch = Touch { place, label: program.lattice.find(label)?, address: u32::try_from(*address).ok()? };
    (version == 2 || place != Place::Second).then_some(touch)
}

// --- Machine files

fn refused_machine<T>(what: String) -> Answer<T> {
    Err(Stop::Line(3, format!("machine: {what}\n")))
}

fn hardware_of(text: &str) -> Answer<Hardware> {
    let document = Toml { text, at: 0 }.document()?;
    if !matches!(document.get("version"), Some(Value::Integer(1))) {
        return refused_machine("version".into());
    }
    let is_known = |key: &str| matches!(key, "version" | "sharing") || PLACES.iter().any(|(place, _)| *place == key);
    if !document.keys().all(|key| is_known(key)) {
        return refused_machine("unknown key".into());
    }
    let is_shared = match document.get("sharing") {
        Some(Value::Text("partitioned")) => false,
        Some(Value::Text("shared")) => true,
        _ => return refused_machine("sharing".into()),
    };
    let mut numbers = [None; 4];
    let mut first_come = [false; 4];
    for (place, (name, _)) in PLACES.iter().enumerate() {
        if let Some(value) = document.get(name) {
            match bank_numbers(value) {
                None => return refused_machine(format!("{name}: not a bank")),
                found => numbers[place] = found,
            }
            match is_first_come(value) {
                None => return refused_machine(format!("{name}: replace")),
                Some(found) => first_come[place] = found,
            }
        }
    }
    let mut hardware = Hardware { is_shared, ..Hardware::default() };
    for (place, (name, _)) in PLACES.iter().enumerate() {
        if let Some([sets, ways, bytes, hit, miss]) = numbers[place] {
            let limits = [("sets", sets, MOST_SETS), ("ways", ways, MOST_WAYS), ("bytes", bytes, u32::MAX as i64)];
            if let Some((what, ..)) = limits.iter().find(|(_, number, most)| !(1..=*most).contains(number)) {
                return refused_machine(format!("{name}: {what}"));
            }
            let (sets, ways, bytes, hit, miss) = (sets as u32, ways as u32, bytes as u32, hit as u64, miss as u64);
            hardware.banks[place] = Some(Bank { sets, ways, bytes, hit, miss, is_first_come: first_come[place] });
        }
    }
    let [page, code, data, second] = hardware.banks.map(|bank| bank.map_or(0, |bank| bank.hit.max(bank.miss)));
    match page + code.max(data) + second {
        whole if whole > MOST_COST => refused_machine(format!("costs {whole}")),
        _ => Ok(hardware),
    }
}

/// The five numbers of a bank.
fn bank_numbers(value: &Value) -> Option<[i64; 5]> {
    let Value::Table(table) = value else {
        return None;
    };
    let mut numbers = [0; 5];
    for (number, name) in numbers.iter_mut().zip(["sets", "ways", "bytes", "hit", "miss"]) {
        match table.get(name) {
            Some(Value::Integer(found @ 0..=0xffff_ffff)) => *number = *found,
            _ => return None,
        }
    }
    (table.len() == 5 + usize::from(table.contains_key("replace"))).then_some(numbers)
}

/// Whether a bank names the rule of the first that came; none where it names no rule that there is.
fn is_first_come(value: &Value) -> Option<bool> {
    let Value::Table(table) = value else {
        return None;
    };
    match table.get("replace") {
        None | Some(Value::Text("lru")) => Some(false),
        Some(Value::Text("fifo")) => Some(true),
        _ => None,
    }
}

// --- The untimed meaning

/// An expression: most have one part or an operator with two. Variables have their numbers.
#[derive(Clone, Copy)]
enum Worth {
    One(Leaf),
    Two(Operator, Leaf, Leaf),
    Parts(Expression),
}

#[derive(Clone, Copy)]
enum Leaf {
    Number(i64),
    Variable(u32),
}

/// A command, in one row with all others; `next` is the place of the one after it, and a choice has that of its other branch.
#[derive(Clone, Copy)]
struct Deed {
    form: Step,
    worth: Worth,
    next: u32,
}

#[derive(Clone, Copy)]
enum Step {
    Pass,
    Assign { variable: u32 },
    Put { first: u32, length: u32, index: Expression },
    Choose { other: u32 },
}

/// The place after the last command.
const ENDED: u32 = u32::MAX;

struct Meaning<'p> {
    program: &'p Program<'p>,
    memory: Vec<i64>,
    operands: Vec<i64>,
    deeds: Vec<Deed>,
}

impl Meaning<'_> {
    /// Adds the commands of a list, and gives the place of the first one.
    fn list(&mut self, commands: &[Command], next: u32) -> u32 {
        let mut after = next;
        for command in commands.iter().rev() {
            after = self.command(command, after);
        }
        after
    }

    /// Adds a command that `next` comes after, and gives its place.
    fn command(&mut self, command: &Command, next: u32) -> u32 {
        let worth = self.worth(command.value);
        let (form, next) = match &command.form {
            Form::Skip | Form::Sleep => (Step::Pass, next),
            Form::Assign { to } => (Step::Assign { variable: self.program.declarations[*to as usize].first }, next),
            Form::Put { to, index } => {
                let declaration = &self.program.declarations[*to as usize];
                let length = declaration.length.unwrap_or(1);
                (Step::Put { first: declaration.first, length, index: *index }, next)
            }
            Form::If { yes, no } => {
                let other = self.list(no, next);
                (Step::Choose { other }, self.list(yes, next))
            }
            Form::While { body, .. } => {
                let place = self.deeds.len();
                self.deeds.push(Deed { form: Step::Choose { other: next }, worth, next });
                self.deeds[place].next = self.list(body, place as u32);
                return place as u32;
            }
            Form::Mitigate { body, .. } => (Step::Pass, self.list(body, next)),
        };
        self.deeds.push(Deed { form, worth, next });
        self.deeds.len() as u32 - 1
    }

    fn leaf(&self, part: Part) -> Option<Leaf> {
        match part {
            Part::Number(value) => Some(Leaf::Number(value)),
            Part::Variable { declaration, .. } => Some(Leaf::Variable(self.program.declarations[declaration as usize].first)),
            _ => None,
        }
    }

    fn worth(&self, expression: Expression) -> Worth {
        let found = match *self.program.parts_of(expression) {
            [one] => self.leaf(one).map(Worth::One),
            [left, right, Part::Apply { operator, .. }] => {
                self.leaf(left).zip(self.leaf(right)).map(|(left, right)| Worth::Two(operator, left, right))
            }
            _ => None,
        };
        found.unwrap_or(Worth::Parts(expression))
    }

    #[inline(always)]
    fn leaf_value(&self, leaf: Leaf) -> i64 {
        match leaf {
            Leaf::Number(value) => value,
            Leaf::Variable(variable) => self.memory[variable as usize],
        }
    }

    #[inline(always)]
    fn value(&mut self, worth: Worth) -> i64 {
        match worth {
            Worth::One(leaf) => self.leaf_value(leaf),
            Worth::Two(operator, left, right) => applied(operator, self.leaf_value(left), self.leaf_value(right)),
            Worth::Parts(expression) => self.whole(expression),
        }
    }

    #[inline(never)]
    fn whole(&mut self, expression: Expression) -> i64 {
        self.operands.clear();
        for part in self.program.parts_of(expression) {
            match *part {
                Part::Number(value) => self.operands.push(value),
                Part::Variable { declaration, .. } => {
                    let variable = self.program.declarations[declaration as usize].first;
                    self.operands.push(self.memory[variable as usize]);
                }
                Part::Element { declaration, .. } => {
                    let index = self.operands.pop().unwrap_or(0);
                    let declaration = &self.program.declarations[declaration as usize];
                    let place = chosen(declaration.first, declaration.length.unwrap_or(1), index);
                    self.operands.push(self.memory[place]);
                }
                Part::Apply { operator, .. } => {
                    let right = self.operands.pop().unwrap_or(0);
                    let left = self.operands.pop().unwrap_or(0);
                    self.operands.push(applied(operator, left, right));
                }
            }
        }
        self.operands.pop().unwrap_or(0)
    }

    /// Takes at most so many steps, and writes each assignment and the last line.
    fn steps(&mut self, steps: u64) {
        let (program, mut lines) = (self.program, Lines::new(self.program));
        let (mut at, mut taken) = (self.list(&program.body, ENDED), 0);
        while at != ENDED && taken < steps {
            taken += 1;
            let Deed { form, worth, next } = self.deeds[at as usize];
            at = next;
            let (variable, value) = match form {
                Step::Pass => continue,
                Step::Choose { other } => {
                    if self.value(worth) == 0 {
                        at = other;
                    }
                    continue;
                }
                Step::Assign { variable } => (variable as usize, self.value(worth)),
                Step::Put { first, length, index } => {
                    let index = self.whole(index);
                    (chosen(first, length, index), self.value(worth))
                }
            };
            self.memory[variable] = value;
            lines.line(variable, value, None);
        }
        lines.end(if at == ENDED { "ended after " } else { "not ended after " }, taken, " steps\n");
    }
}

fn meaning(program: &Program, start: &Start, steps: u64) {
    let deeds = Vec::with_capacity(program.commands);
    Meaning { program, memory: start.memory.clone(), operands: Vec::new(), deeds }.steps(steps);
}

// --- Made programs

/// The text of a made program, and its four starts.
fn made(size: u64, number: u64) -> (String, Vec<Start>) {
    use std::fmt::Write;
    let mut state = number;
    let mut draw = |below: u64| {
        state = (state * 1_103_515_245 + 12_345) % (1 << 31);
        state / 65_536 % below
    };
    let mut text = String::with_capacity(64 * size as usize);
    for name in ["l", "h"] {
        for place in 0..4 {
            text += &format!("var {name}{place} : {};\n", name.to_uppercase());
        }
    }
    for unit in 0..size {
        let (kind, a, b, c) = (draw(4), draw(4), draw(4), draw(100));
        let d = c + 1;
        text += if unit == 0 { "" } else { ";\n" };
        let _ = match kind {
            0 => write!(text, "l{a} := l{b} + {c}"),
            1 => write!(text, "mitigate ({d}, H) {{ h{a} := (h{b} + {c}) % 16 }}"),
            2 => write!(text, "mitigate ({d}, H) {{ while h{a} > 0 do {{ h{a} := h{a} - 1 }} }}"),
            _ => write!(text, "if l{a} > {c} then {{ l{b} := l{a} - {c} }} else {{ l{a} := l{a} + 1 }}"),
        };
    }
    text.push('\n');
    let start = |r: i64| Start { memory: vec![0, 0, 0, 0, r, 2 * r, 3 * r, 5 * r], touches: Vec::new() };
    (text, (0..4).map(start).collect())
}

fn gen_made(size: u64, number: u64) -> Answer<()> {
    let (text, starts) = made(size, number);
    let labelled = labelled(parsed(&text)?)?;
    let image = lowered(&labelled, false)?;
    let setting = Setting { kind: PART, hardware: Hardware::default() };
    let asked = Asked { setting: &setting, budget: GREATEST_BUDGET, observer: 0, is_cut: false };
    let audit = audit(&labelled, &image, &starts, &asked)?.text(&labelled, &asked);
    let (commands, instructions) = (labelled.program.commands, image.code.len());
    let length = text.len();
    send(format!("made {size} {number}\nprogram {length}\ncommands {commands}\ninstructions {instructions}\n{audit}").as_bytes());
    Ok(())
}

// --- The black box

/// The ready cycles of all runs in one row, and where those of each run end in it.
struct ReadyRuns {
    cycles: Vec<u64>,
    ends: Vec<usize>,
}

fn ready_runs(text: &[u8]) -> Answer<ReadyRuns> {
    let mut runs = ReadyRuns { cycles: Vec::with_capacity(text.len() / 4), ends: Vec::new() };
    let (mut rest, mut place) = (text, 0);
    loop {
        place += 1;
        let end = rest.iter().position(|byte| *byte == b'\n');
        let mut line = &rest[..end.unwrap_or(rest.len())];
        while let [b' ' | b'\t' | b'\r', more @ ..] = line {
            line = more;
        }
        while let [more @ .., b' ' | b'\t' | b'\r'] = line {
            line = more;
        }
        match line {
            [] => {}
            b"run" => runs.ends.push(runs.cycles.len()),
            _ => {
                let is_number = line.len() <= 20 && line.iter().all(u8::is_ascii_digit);
                let value = line.iter().fold(0u128, |value, digit| 10 * value + digit.wrapping_sub(b'0') as u128);
                match runs.ends.last_mut() {
                    Some(end) if is_number && value <= GREATEST_BUDGET as u128 => {
                        runs.cycles.push(value as u64);
                        *end += 1;
                    }
                    _ => return Err(Stop::Line(3, format!("ready: bad line {place}\n"))),
                }
            }
        }
        match end {
            Some(end) => rest = &rest[end + 1..],
            None => break,
        }
    }
    match runs.ends.len() {
        0 => Err(Stop::Line(3, "ready: no runs\n".into())),
        1..=MOST_RUNS => Ok(runs),
        count => Err(Stop::Line(3, format!("ready: too many runs: {count}\n"))),
    }
}

fn black_box(runs: &ReadyRuns, first: u64, budget: u64) {
    let (mut out, mut last, mut begun) = (Vec::with_capacity(8 * runs.cycles.len()), Vec::new(), 0);
    let (mut released, mut ranges) = (Vec::with_capacity(runs.cycles.len()), Vec::new());
    let mut classes: HashMap<u64, Vec<usize>, BuildHasherDefault<NameHasher>> = HashMap::default();
    for (place, end) in runs.ends.iter().enumerate() {
        let (ready, from) = (&runs.cycles[begun..*end], released.len());
        let (mut epochs, mut length, mut slot) = (1u64, first, first);
        begun = *end;
        while slot <= budget {
            if ready.get(released.len() - from).is_some_and(|cycle| *cycle <= slot) {
                released.push(slot);
            } else {
                epochs += 1;
                length *= 2;
            }
            slot += length;
        }
        let (number, own) = (place as u64 + 1, &released[from..]);
        for (event, cycle) in own.iter().enumerate() {
            out.extend_from_slice(b"run ");
            write_number(number, &mut out);
            out.extend_from_slice(b" event ");
            write_number(event as u64 + 1, &mut out);
            out.extend_from_slice(b" @");
            write_number(*cycle, &mut out);
            out.push(b'\n');
        }
        let (events, count) = (ready.len(), own.len());
        let hash = own.iter().fold(0u64, |hash, cycle| (hash.rotate_left(5) ^ cycle).wrapping_mul(0x9e37_79b9_7f4a_7c15));
        let alike = classes.entry(hash).or_default();
        let is_same = |class: &&usize| {
            let (first, end): (usize, usize) = ranges[**class];
            released[first..end] == *own
        };
        let class = match alike.iter().find(is_same) {
            Some(class) => *class,
            None => {
                alike.push(ranges.len());
                ranges.push((from, released.len()));
                ranges.len() - 1
            }
        };
        if ranges[class].0 != from {
            released.truncate(from);
        }
        let told = [(&b"run "[..], number), (b" events ", events as u64), (b" released ", count as u64), (b" epochs ", epochs), (b" class ", class as u64 + 1)];
        for (word, number) in told {
            last.extend_from_slice(word);
            write_number(number, &mut last);
        }
        last.push(b'\n');
    }
    let (count, distinct, base, digits) = (runs.ends.len(), ranges.len(), budget + 1, u64::BITS - budget.leading_zeros());
    let middle = format!("runs {count}\nfirst {first}\nbudget {budget}\ndistinct {distinct}\nbound {base}^{digits}\n");
    out.extend_from_slice(middle.as_bytes());
    out.extend_from_slice(&last);
    send(&out);
}

// --- Commands

/// Prints each event that is shown.
struct EventPrinter {
    is_shown: Vec<bool>,
    lines: Lines,
}

const FULL: usize = 1 << 16;
/// No line of a variable is as long.
const LINE: usize = 128;
const NAME: usize = 48;

/// Lines that wait to be written, in a row that always has room for one more.
struct Lines {
    bytes: Box<[u8; FULL + LINE]>,
    length: usize,
    /// Of each variable, elements included, how its line begins, and the length of that.
    names: Vec<([u8; NAME], u8)>,
}

impl Lines {
    fn new(program: &Program) -> Self {
        let (owners, mut name, mut names) = (program.owners(), Vec::new(), Vec::with_capacity(program.elements));
        for variable in 0..program.elements {
            name.clear();
            program.write_variable(&owners, variable, &mut name);
            name.extend_from_slice(b" = ");
            let mut row = [0; NAME];
            row[..name.len()].copy_from_slice(&name);
            names.push((row, name.len() as u8));
        }
        Lines { bytes: Box::new([0; FULL + LINE]), length: 0, names }
    }

    /// Writes a variable, its value, and its cycle if there is one.
    fn line(&mut self, variable: usize, value: i64, cycle: Option<u64>) {
        let (name, length) = &self.names[variable];
        let line: &mut [u8; LINE] = (&mut self.bytes[self.length..self.length + LINE]).try_into().unwrap();
        line[..NAME].copy_from_slice(name);
        let mut at = *length as usize;
        if value < 0 {
            line[at] = b'-';
            at += 1;
        }
        at = put_number(value.unsigned_abs(), line, at);
        if let Some(cycle) = cycle {
            line[at..at + 2].copy_from_slice(b" @");
            at = put_number(cycle, line, at + 2);
        }
        line[at] = b'\n';
        self.length += at + 1;
        if self.length >= FULL {
            send(&self.bytes[..self.length]);
            self.length = 0;
        }
    }

    /// Writes the last line, a word before a number and one behind it.
    fn end(self, before: &str, number: u64, behind: &str) {
        let mut out = self.bytes[..self.length].to_vec();
        out.extend_from_slice(before.as_bytes());
        write_number(number, &mut out);
        out.extend_from_slice(behind.as_bytes());
        send(&out);
    }
}

/// Puts the digits of a number into a line: the place behind them.
#[inline(always)]
fn put_number(value: u64, line: &mut [u8; LINE], at: usize) -> usize {
    let mut digits = [0; 20];
    let first = digits_of(value, &mut digits);
    let count = 20 - first;
    line[at..at + count].copy_from_slice(&digits[first..]);
    at + count
}

impl Listener for EventPrinter {
    #[inline(always)]
    fn assigned(&mut self, variable: usize, value: i64, cycle: u64) {
        if self.is_shown[variable] {
            self.lines.line(variable, value, Some(cycle));
        }
    }
}

/// Writes bytes to standard output; a reader that has gone away ends the program.
fn send(bytes: &[u8]) {
    if std::io::stdout().lock().write_all(bytes).is_err() {
        std::process::exit(6);
    }
}

/// Whether the observer sees each variable, elements included; without an observer all are seen.
fn shown(labelled: &Labelled, owners: &[u32], observer: Option<u8>) -> Vec<bool> {
    let flows = |owner: &u32| {
        let label = labelled.variables[*owner as usize];
        observer.is_none_or(|observer| labelled.program.lattice.flows(label, observer))
    };
    owners.iter().map(flows).collect()
}

fn run(labelled: &Labelled, image: &Image, start: &Start, words: &Words, observer: Option<u8>) -> u8 {
    let program = &labelled.program;
    let owners = program.owners();
    let is_shown = shown(labelled, &owners, observer);
    let mut printer = EventPrinter { is_shown, lines: Lines::new(program) };
    let mut machine = Machine::new(program, &words.setting);
    machine.run(&words.setting, &image.code, start, words.budget, &mut printer);
    printer.lines.end(if machine.has_halted { "end @" } else { "limit @" }, machine.clock, "\n");
    if machine.has_halted {
        0
    } else {
        8
    }
}

/// An event that is shown: its cycle above the number of its variable, and its value.
type Event = (u64, i64);

/// The bits of the number of a variable: cycles have at most 41.
const VARIABLE_BITS: u32 = 12;

/// The events that the observer sees, those of each different run once, and the numbers of relevant mitigations that
/// began and ended in the run at hand: all, and for each level those that began. `firsts` has for each level the least first
/// prediction of one in any run.
struct Watch {
    is_shown: Vec<bool>,
    is_relevant: Vec<bool>,
    events: Vec<Event>,
    begun: u64,
    begun_of: [u64; MOST_LABELS],
    firsts: [u64; MOST_LABELS],
    listed: Vec<Vec<u64>>,
    places: [usize; MOST_LABELS],
    ended: u64,
}

impl Listener for Watch {
    fn assigned(&mut self, variable: usize, value: i64, cycle: u64) {
        if self.is_shown[variable] {
            self.events.push((cycle << VARIABLE_BITS | variable as u64, value));
        }
    }

    fn began(&mut self, opened: &Opened, _misses: u32) {
        if self.is_relevant[opened.mark as usize] {
            let level = opened.level as usize;
            self.begun += 1;
            self.begun_of[level] += 1;
            self.firsts[level] = self.firsts[level].min(opened.predicts(0) as u64);
            let (listed, place) = (&mut self.listed[level], self.places[level]);
            match listed.get_mut(place) {
                Some(least) => *least = (*least).min(opened.predicts(0) as u64),
                None => listed.push(opened.predicts(0) as u64),
            }
            self.places[level] += 1;
        }
    }

    fn ended(&mut self, opened: &Opened, _worked_to: u64, _misses: (u32, u32), _cycle: u64) {
        self.ended += self.is_relevant[opened.mark as usize] as u64;
    }
}

/// The different sequences in the order in which they came: where each lies, and which have a hash. `last` is the class that
/// was found last.
#[derive(Default)]
struct Classes {
    ranges: Vec<(usize, usize)>,
    by_hash: HashMap<u64, Vec<usize>, BuildHasherDefault<NameHasher>>,
    last: usize,
}

impl Classes {
    /// The class of the sequence that begins at `first` and is the last one; a known one is dropped.
    fn class_of(&mut self, events: &mut Vec<Event>, first: usize) -> usize {
        if let Some(&(from, to)) = self.ranges.get(self.last) {
            if events[from..to] == events[first..] {
                events.truncate(first);
                return self.last;
            }
        }
        let alike = self.by_hash.entry(hash_of(&events[first..])).or_default();
        let is_same = |class: &&usize| {
            let (from, to) = self.ranges[**class];
            events[from..to] == events[first..]
        };
        if let Some(&class) = alike.iter().find(is_same) {
            events.truncate(first);
            self.last = class;
            return class;
        }
        self.last = self.ranges.len();
        alike.push(self.last);
        self.ranges.push((first, events.len()));
        self.last
    }
}

fn hash_of(events: &[Event]) -> u64 {
    let mix = |hash: u64, word: u64| (hash.rotate_left(5) ^ word).wrapping_mul(0x9e37_79b9_7f4a_7c15);
    events.iter().fold(0, |hash, event| mix(hash, event.0 ^ (event.1 as u64).wrapping_mul(0x2545_f491_4f6c_dd1d)))
}

/// What an audit is asked; one that is cut counts what is seen up to the budget, halted or not.
struct Asked<'s> {
    setting: &'s Setting,
    budget: u64,
    observer: u8,
    is_cut: bool,
}

/// What is counted of the starts: of relevant mitigations those that the first run begins, all and by their levels, with the
/// least first prediction of each level, and of each place in it, and the most that end in a run; and the class of each run.
struct Audit {
    begun: u64,
    begun_of: [u64; MOST_LABELS],
    firsts: [u64; MOST_LABELS],
    listed: Vec<Vec<u64>>,
    most_ended: u64,
    halted: u64,
    of_runs: Vec<usize>,
    ranges: Vec<(usize, usize)>,
    events: Vec<Event>,
}

/// Which mitigates are relevant to an observer.
fn relevant(labelled: &Labelled, observer: u8) -> Vec<bool> {
    let lattice = &labelled.program.lattice;
    let marks = labelled.counters.iter().zip(&labelled.levels);
    marks.map(|(counter, level)| lattice.flows(*counter, observer) && !lattice.flows(*level, observer)).collect()
}

fn audit(labelled: &Labelled, image: &Image, starts: &[Start], asked: &Asked) -> Answer<Audit> {
    let program = &labelled.program;
    let owners = program.owners();
    let is_shown = shown(labelled, &owners, Some(asked.observer));
    agreed(program, starts, &owners, &is_shown, asked)?;
    let mut watch = Watch {
        is_shown,
        is_relevant: relevant(labelled, asked.observer),
        events: Vec::new(),
        begun: 0,
        begun_of: [0; MOST_LABELS],
        firsts: [u64::MAX; MOST_LABELS],
        listed: vec![Vec::new(); MOST_LABELS],
        places: [0; MOST_LABELS],
        ended: 0,
    };
    let mut machine = Machine::new(program, asked.setting);
    let (mut classes, mut of_runs, mut total) = (Classes::default(), Vec::new(), 0);
    let (mut begun, mut begun_of, mut most_ended, mut halted) = (0, [0; MOST_LABELS], 0, 0);
    for (number, start) in starts.iter().enumerate() {
        let first = watch.events.len();
        watch.ended = 0;
        watch.places = [0; MOST_LABELS];
        machine.run(asked.setting, &image.code, start, asked.budget, &mut watch);
        if !machine.has_halted && !asked.is_cut {
            return Err(Stop::Line(10, format!("unfinished: run {} @{}\n", number + 1, machine.clock)));
        }
        total += watch.events.len() - first;
        if total > MOST_EVENTS {
            return Err(Stop::Line(7, format!("too long: events {total}\n")));
        }
        if number == 0 {
            (begun, begun_of) = (watch.begun, watch.begun_of);
        }
        most_ended = most_ended.max(watch.ended);
        halted += machine.has_halted as u64;
        of_runs.push(classes.class_of(&mut watch.events, first));
    }
    let (firsts, listed, events, ranges) = (watch.firsts, watch.listed, watch.events, classes.ranges);
    Ok(Audit { begun, begun_of, firsts, listed, most_ended, halted, of_runs, ranges, events })
}

impl Audit {
    fn text(&self, labelled: &Labelled, asked: &Asked) -> String {
        let lattice = &labelled.program.lattice;
        let levels = (0..lattice.names.len()).filter(|label| !lattice.flows(*label as u8, asked.observer)).count();
        let exponent = levels as u32 * (u64::BITS - asked.budget.leading_zeros());
        let (middle, base) = match asked.is_cut {
            true => (format!("ended {}\nhalted {}\n", self.most_ended, self.halted), self.most_ended + 1),
            false => (format!("mitigations {}\n", self.begun), self.begun + 1),
        };
        let (levels, bound) = match asked.setting.hardware.is_shared {
            true => (String::new(), NO_BOUND.into()),
            false => (format!("levels {levels}\n"), format!("bound {base}^{exponent}")),
        };
        let (count, observer, budget, distinct) = (self.of_runs.len(), lattice.name(asked.observer), asked.budget, self.ranges.len());
        let mut out = format!("runs {count}\nobserver {observer}\nbudget {budget}\n{levels}{middle}distinct {distinct}\n{bound}\n");
        let mut lines = Vec::with_capacity(24 * self.of_runs.len());
        for (number, class) in self.of_runs.iter().enumerate() {
            lines.extend_from_slice(b"run ");
            write_number(number as u64 + 1, &mut lines);
            lines.extend_from_slice(b" class ");
            write_number(*class as u64 + 1, &mut lines);
            lines.push(b'\n');
        }
        out += &String::from_utf8_lossy(&lines);
        out
    }
}

/// Finds the first run that differs from the first one in what the observer sees: a variable or a partition.
fn agreed(program: &Program, starts: &[Start], owners: &[u32], is_shown: &[bool], asked: &Asked) -> Answer<()> {
    let lattice = &program.lattice;
    let caches = |start: &Start| {
        let mut caches = Box::new(Caches::new(asked.setting, lattice));
        caches.warm(asked.setting, lattice.bottom, &start.touches);
        caches
    };
    let has_touches = starts.iter().any(|start| !start.touches.is_empty());
    let first = caches(&starts[0]);
    for (number, start) in starts.iter().enumerate() {
        let differs = |variable: &usize| is_shown[*variable] && start.memory[*variable] != starts[0].memory[*variable];
        let mut line = format!("disagree: run {}: ", number + 1).into_bytes();
        if let Some(variable) = (0..start.memory.len()).find(differs) {
            line.extend_from_slice(b"variable ");
            program.write_variable(owners, variable, &mut line);
            line.push(b'\n');
            return Err(Stop::Line(9, String::from_utf8_lossy(&line).into_owned()));
        }
        if !has_touches {
            continue;
        }
        let own = caches(start);
        for (name, place) in PLACES {
            for label in 0..lattice.names.len() as u8 {
                if lattice.flows(label, asked.observer) && !own.is_same(&first, place, label) {
                    line.extend_from_slice(format!("partition {} of {name}\n", lattice.name(label)).as_bytes());
                    return Err(Stop::Line(9, String::from_utf8_lossy(&line).into_owned()));
                }
            }
        }
    }
    Ok(())
}

// --- The lab

const NO_BOUND: &str = "no bound: all labels share the banks, and the law on the write label does not hold";

/// Writes what each run tells, a line each or a timeline each.
struct Teller<'p> {
    labelled: &'p Labelled<'p>,
    owners: Vec<u32>,
    is_shown: Vec<bool>,
    /// What is written between a name and its value, before a cycle, and behind it.
    signs: [&'static str; 3],
    has_moments: bool,
    places: Vec<(usize, usize)>,
    /// Of each mitigate how many ended, the shortest and the longest of them, and how many missed.
    ends: Vec<(u64, u64, u64, u64)>,
    out: Vec<u8>,
}

impl Teller<'_> {
    fn head(&self, mark: u32) -> String {
        let (line, column) = self.places[mark as usize];
        let level = self.labelled.program.lattice.name(self.labelled.levels[mark as usize]);
        format!("#{mark} {line}:{column} level {level}")
    }
}

impl Listener for Teller<'_> {
    fn assigned(&mut self, variable: usize, value: i64, cycle: u64) {
        if self.is_shown[variable] {
            let [equals, at, end] = self.signs;
            self.labelled.program.write_variable(&self.owners, variable, &mut self.out);
            self.out.extend_from_slice(equals.as_bytes());
            write_signed(value, &mut self.out);
            self.out.extend_from_slice(at.as_bytes());
            write_number(cycle, &mut self.out);
            self.out.extend_from_slice(end.as_bytes());
        }
    }

    fn began(&mut self, opened: &Opened, misses: u32) {
        if self.has_moments {
            let (head, estimate, length, cycle) = (self.head(opened.mark), opened.estimate, opened.predicts(misses), opened.begun);
            let line = format!("begin {head} estimate {estimate} predicts {length} misses {misses} @{cycle}\n");
            self.out.extend_from_slice(line.as_bytes());
        }
    }

    fn ended(&mut self, opened: &Opened, worked_to: u64, (before, after): (u32, u32), cycle: u64) {
        if self.has_moments {
            let (head, worked, length) = (self.head(opened.mark), worked_to - opened.begun, opened.predicts(after));
            let line = format!("end {head} worked {worked} lasts {length} misses {before} to {after} @{cycle}\n");
            self.out.extend_from_slice(line.as_bytes());
            let (count, shortest, longest, missed) = self.ends[opened.mark as usize];
            let shortest = if count == 0 { worked } else { shortest.min(worked) };
            self.ends[opened.mark as usize] = (count + 1, shortest, longest.max(worked), missed + (before < after) as u64);
        }
    }
}

/// The places of the mitigates of commands, by their marks.
fn places_of(commands: &[Command], text: &str, places: &mut Vec<(usize, usize)>) {
    for command in commands {
        match &command.form {
            Form::If { yes, no } => {
                places_of(yes, text, places);
                places_of(no, text, places);
            }
            Form::While { body, .. } => places_of(body, text, places),
            Form::Mitigate { mark, body } => {
                places[*mark as usize] = place_of(text, command.at as usize);
                places_of(body, text, places);
            }
            _ => {}
        }
    }
}

/// The lines of `seen` or of `timeline`.
fn told_of_runs(labelled: &Labelled, image: &Image, starts: &[Start], words: &Words, observer: Option<u8>) -> String {
    let (program, marks) = (&labelled.program, labelled.levels.len());
    let (owners, mut places) = (program.owners(), vec![(0, 0); marks]);
    let (is_shown, has_moments) = (shown(labelled, &owners, observer), words.command == "timeline");
    places_of(&program.body, program.text, &mut places);
    let signs = if has_moments { [" = ", " @", "\n"] } else { ["=", "@", " "] };
    let ends = vec![(0, 0, 0, 0); marks];
    let mut teller = Teller { labelled, owners, is_shown, signs, has_moments, places, ends, out: Vec::new() };
    let mut machine = Machine::new(program, &words.setting);
    for (number, start) in (1..).zip(starts) {
        let head = if has_moments { format!("run {number}\n") } else { format!("{number}\t") };
        teller.out.extend_from_slice(head.as_bytes());
        machine.run(&words.setting, &image.code, start, words.budget, &mut teller);
        match teller.out.last_mut() {
            _ if has_moments => {
                let last = if machine.has_halted { "end" } else { "limit" };
                teller.out.extend_from_slice(format!("{last} @{}\n", machine.clock).as_bytes());
            }
            Some(last) if *last == b' ' => *last = b'\n',
            _ => teller.out.extend_from_slice(b"-\n"),
        }
    }
    let mut text = String::from_utf8_lossy(&teller.out).into_owned();
    for (mark, ((line, column), (count, shortest, longest, missed))) in teller.places.iter().zip(&teller.ends).enumerate() {
        if has_moments {
            let least = longest + 1;
            text += &format!("mitigate #{mark} {line}:{column} ended {count} shortest {shortest} longest {longest} missed {missed} least {least}\n");
        }
    }
    text
}

/// The line that tells which kind of machine was used, if one was.
fn machine_line(asked: &Asked) -> &'static str {
    match (asked.setting.kind, asked.setting.hardware.is_shared) {
        (MACHINE, true) => "machine shared\n",
        (MACHINE, false) => "machine partitioned\n",
        _ => "",
    }
}

/// How many lists of so many numbers below another one never fall; None where that is 2^128 or more.
fn lists(entries: u64, digits: u64) -> Option<u128> {
    let mut count = 1u128;
    for i in 1..digits {
        let (mut a, mut b) = (count, i as u128);
        while b != 0 {
            (a, b) = (b, a % b);
        }
        count = (count / a).checked_mul((entries as u128 + i as u128) / (i as u128 / a))?;
    }
    Some(count)
}

/// How many ways there are to choose so many powers of two, in no order, that add up to at most so much.
fn powers_within(entries: u64, most: u64, known: &mut HashMap<(u64, u64), u128>) -> u128 {
    if most < entries || entries == 0 {
        return (entries == 0) as u128;
    }
    if let Some(count) = known.get(&(entries, most)) {
        return *count;
    }
    let count = 1 + (0..entries).map(|ones| powers_within(entries - ones, (most - ones) / 2, known)).sum::<u128>();
    known.insert((entries, most), count);
    count
}

/// How many lists that never fall have each number below its own limit; None where that is 2^128 or more.
fn limited(limits: impl Iterator<Item = u64>) -> Option<u128> {
    let mut ways: Vec<Option<u128>> = Vec::new();
    for (place, limit) in limits.enumerate() {
        let mut below = Some(if place == 0 { 1 } else { 0 });
        let mut next = Vec::new();
        for number in 0..limit as usize {
            if place > 0 {
                let more = ways.get(number).copied().unwrap_or(Some(0));
                below = below.zip(more).and_then(|(a, b): (u128, u128)| a.checked_add(b));
            }
            next.push(below);
        }
        ways = next;
    }
    ways.into_iter().try_fold(0u128, |sum, way| sum.checked_add(way?))
}

/// The product of two counts, each None where it is 2^128 or more.
fn times(one: Option<u128>, other: Option<u128>) -> Option<u128> {
    match (one, other) {
        (Some(0), _) | (_, Some(0)) => Some(0),
        (one, other) => one?.checked_mul(other?),
    }
}

/// The lines of the levels, the sharp count, and the counts by shared time and by own first predictions, each None where it is
/// 2^128 or more.
fn of_levels(labelled: &Labelled, audit: &Audit, asked: &Asked) -> (String, Option<u128>, [Option<u128>; 2]) {
    let lattice = &labelled.program.lattice;
    let (mut text, mut sharp, mut shared, mut own) = (String::new(), Some(1u128), Some(1u128), Some(1u128));
    for level in 0..lattice.names.len() {
        if lattice.flows(level as u8, asked.observer) {
            continue;
        }
        let (begun, first) = (audit.begun_of[level], audit.firsts[level]);
        text += &format!("level {} mitigations {begun}", lattice.names[level]);
        if begun > 0 {
            let digits = (u64::BITS - (asked.budget / first).leading_zeros()) as u64;
            let all = lists(begun, digits);
            let within = if begun <= 64 { Some(powers_within(begun, asked.budget / first, &mut HashMap::new())) } else { all };
            sharp = sharp.zip(all).and_then(|(a, b)| a.checked_mul(b));
            shared = shared.zip(within).and_then(|(a, b)| a.checked_mul(b));
            let limits = audit.listed[level].iter().map(|first| (u64::BITS - (asked.budget / first).leading_zeros()) as u64);
            own = times(own, limited(limits));
            text += &format!(" first {first} digits {digits}");
        }
        text += "\n";
    }
    (text, sharp, [shared, own])
}

/// Whether a relevant mitigate stands in another one.
fn has_nested(commands: &[Command], is_relevant: &[bool], is_inside: bool) -> bool {
    commands.iter().any(|command| match &command.form {
        Form::If { yes, no } => has_nested(yes, is_relevant, is_inside) || has_nested(no, is_relevant, is_inside),
        Form::While { body, .. } => has_nested(body, is_relevant, is_inside),
        Form::Mitigate { mark, body } => {
            let is_one = is_relevant[*mark as usize];
            is_inside && is_one || has_nested(body, is_relevant, is_inside || is_one)
        }
        _ => false,
    })
}

fn count_line(name: &str, count: Option<u128>) -> String {
    count.map_or(format!("{name} 2^128 or more\n"), |count| format!("{name} {count}\n"))
}

/// The lines of the counts by shared time and by own first predictions, where there are any.
fn smaller_lines(labelled: &Labelled, asked: &Asked, [shared, own]: [Option<u128>; 2]) -> String {
    let is_nested = has_nested(&labelled.program.body, &relevant(labelled, asked.observer), false);
    if is_nested { String::new() } else { count_line("shared", shared) + &count_line("own", own) }
}

fn bound_text(labelled: &Labelled, audit: &Audit, asked: &Asked) -> String {
    let text = machine_line(asked).to_string() + &audit.text(labelled, asked);
    if asked.setting.hardware.is_shared {
        return text;
    }
    let (levels, sharp, smaller) = of_levels(labelled, audit, asked);
    let bits = match sharp {
        None => "bits 128 or more\nguess no limit told\n".into(),
        Some(count) => {
            let bits = u128::BITS - (count.max(1) - 1).leading_zeros();
            format!("bits {bits}\nguess at most {count} times as often\n")
        }
    };
    let end = match labelled.program.lattice.flows(labelled.end, asked.observer) {
        true => "end counted: the same holds for who sees runs end\n",
        false => "end not counted: no limit told for who sees runs end\n",
    };
    text + &levels + &count_line("sharp", sharp) + &bits + &smaller_lines(labelled, asked, smaller) + end
}

/// The binary logarithm in units of 2^-32, by squares that are rounded down.
fn log_units(n: u64) -> u64 {
    let (mut units, mut mantissa) = (n.ilog2() as u64, (n as u128) << (62 - n.ilog2()));
    for _ in 0..32 {
        let square = mantissa * mantissa;
        let carry = (square >> 125) as u64;
        units = 2 * units + carry;
        mantissa = square >> (62 + carry);
    }
    units
}

/// The line of a number that lies between two numbers of units.
fn between(name: &str, low: u64, high: u64) -> String {
    const PARTS: u128 = 1_000_000_000;
    let (low, high) = (low as u128 * PARTS >> 32, (high as u128 * PARTS).div_ceil(1 << 32));
    let number = |n: u128| format!("{}.{:09}", n / PARTS, n % PARTS);
    format!("{name} {} to {}\n", number(low), number(high))
}

fn leak_text(labelled: &Labelled, audit: &Audit, asked: &Asked) -> String {
    let is_kept = |line: &&str| ["runs ", "observer ", "budget ", "bound ", "no bound"].iter().any(|word| line.starts_with(word));
    let head: Vec<String> = audit.text(labelled, asked).lines().filter(is_kept).map(|line| format!("{line}\n")).collect();
    let mut text = machine_line(asked).to_string() + &head.concat();
    if !asked.setting.hardware.is_shared {
        let (_, sharp, smaller) = of_levels(labelled, audit, asked);
        text += &(count_line("sharp", sharp) + &smaller_lines(labelled, asked, smaller));
    }
    let (whole, distinct) = (audit.of_runs.len() as u64, audit.ranges.len());
    let (mut sizes, mut firsts) = (vec![0u64; distinct], vec![0; distinct]);
    for (number, class) in audit.of_runs.iter().enumerate().rev() {
        sizes[*class] += 1;
        firsts[*class] = number + 1;
    }
    let log = log_units(distinct as u64);
    let weighed: u64 = sizes.iter().map(|size| size * log_units(*size)).sum();
    let shannon = (whole * log_units(whole)).saturating_sub(weighed) / whole;
    let squares: u64 = sizes.iter().map(|size| size * size).sum();
    let (least, greatest) = (sizes.iter().min().unwrap_or(&0), sizes.iter().max().unwrap_or(&0));
    text += &format!("distinct {distinct}\nleast {least} greatest {greatest}\n");
    text += &between("min-entropy", log, log + 2);
    text += &between("shannon", shannon.saturating_sub(2), shannon + 3);
    text += &format!("right at first 1 of {whole} before, {distinct} of {whole} after\n");
    text += &format!("guesses {}/2 before, {}/{} after\n", whole + 1, squares + whole, 2 * whole);
    let owners = labelled.program.owners();
    for (class, (from, to)) in audit.ranges.iter().enumerate() {
        let mut field = Vec::new();
        for (place, value) in &audit.events[*from..*to] {
            let (variable, cycle) = (place % (1 << VARIABLE_BITS), place >> VARIABLE_BITS);
            labelled.program.write_variable(&owners, variable as usize, &mut field);
            field.extend_from_slice(format!("={value}@{cycle} ").as_bytes());
        }
        let field = String::from_utf8_lossy(&field);
        let field = if field.is_empty() { "-" } else { field.trim_end() };
        text += &format!("class {} first {}\t{field}\n", sizes[class], firsts[class]);
    }
    text
}

// --- Words

const USAGE: &str = "usage: mitigate check FILE
       mitigate infer FILE
       mitigate compile FILE
       mitigate run FILE [STARTS] [--env flat|part|part2] [--budget T] [--observer L]
       mitigate meaning FILE [STARTS] --steps N
       mitigate audit FILE STARTS --observer L [--env flat|part|part2] [--budget T]
       mitigate gen SIZE NUMBER
       mitigate cut FILE STARTS --observer L [--env flat|part|part2] [--budget T]
       mitigate blackbox READY --first Q [--budget T]
       mitigate certify FILE
       mitigate recheck FILE CERTIFICATE
";

fn usage<T>() -> Answer<T> {
    Err(Stop::Line(4, USAGE.into()))
}

/// The commands: the least and the most positional words, the options, and the one that has to be there.
const COMMANDS: [(&str, usize, usize, &[&str], &str); 11] = [
    ("check", 1, 1, &[], ""),
    ("infer", 1, 1, &[], ""),
    ("compile", 1, 1, &[], ""),
    ("run", 1, 2, &["env", "budget", "observer"], ""),
    ("meaning", 1, 2, &["steps"], "steps"),
    ("audit", 2, 2, &["observer", "env", "budget"], "observer"),
    ("cut", 2, 2, &["observer", "env", "budget"], "observer"),
    ("gen", 2, 2, &[], ""),
    ("blackbox", 1, 1, &["first", "budget"], "first"),
    ("certify", 1, 1, &[], ""),
    ("recheck", 2, 2, &[], ""),
];

/// The same of the lab's commands that are answered.
const LAB_COMMANDS: [(&str, usize, usize, &[&str], &str); 4] = [
    ("seen", 2, 2, &["observer", "env", "budget", "machine"], "observer"),
    ("timeline", 2, 2, &["observer", "env", "budget", "machine"], ""),
    ("bound", 2, 2, &["observer", "env", "budget", "machine"], "observer"),
    ("leak", 2, 2, &["observer", "env", "budget", "machine"], "observer"),
];

/// The words of a call.
struct Words {
    command: &'static str,
    is_of_lab: bool,
    positional: Vec<String>,
    machine: Option<String>,
    setting: Setting,
    budget: u64,
    observer: Option<String>,
    steps: u64,
    first: u64,
}

impl Words {
    fn is_shared(&self) -> bool {
        self.setting.hardware.is_shared
    }

    /// The answer to words that ask for nothing: of the lab it is left out.
    fn usage<T>(&self) -> Answer<T> {
        if self.is_of_lab { plain("what the lab tells of wrong words is left out") } else { usage() }
    }
}

fn words(mut given: Vec<String>) -> Answer<Words> {
    if given.first().is_none_or(|word| word != "lab") {
        return words_of(given, &COMMANDS, false);
    }
    given.remove(0);
    words_of(given, &LAB_COMMANDS, true).or_else(|_| plain("what the lab tells of wrong words is left out"))
}

fn words_of(given: Vec<String>, commands: &'static [(&str, usize, usize, &[&str], &str)], is_of_lab: bool) -> Answer<Words> {
    let mut rest = given.into_iter();
    let command = rest.next().unwrap_or_default();
    let Some((command, least, most, names, needed)) = commands.iter().find(|known| known.0 == command) else {
        return usage();
    };
    let (mut positional, mut options) = (Vec::new(), HashMap::new());
    while let Some(word) = rest.next() {
        if word == "--" {
            positional.extend(rest.by_ref());
        } else if word == "-" || !word.starts_with('-') {
            positional.push(word);
        } else {
            let (name, value) = match word.split_once('=') {
                Some((name, value)) => (name, Some(value.to_string())),
                None => (&word[..], None),
            };
            let Some(name) = names.iter().find(|known| name.strip_prefix("--") == Some(known)) else {
                return usage();
            };
            let value = match value.or_else(|| rest.next().filter(|value| value.len() < 2 || !value.starts_with('-'))) {
                Some(value) => value,
                None => return usage(),
            };
            if options.insert(*name, value).is_some() {
                return usage();
            }
        }
    }
    if !(*least..=*most).contains(&positional.len()) || !needed.is_empty() && !options.contains_key(needed) {
        return usage();
    }
    if options.contains_key("env") && options.contains_key("machine") {
        return usage();
    }
    let kind = match options.get("env").map(String::as_str) {
        None if options.contains_key("machine") => MACHINE,
        Some("flat") => FLAT,
        None | Some("part") => PART,
        Some("part2") => PART2,
        Some(_) => return usage(),
    };
    let number = |name: &str, least: u64, default: u64| match options.get(name) {
        Some(text) => number_in(text, least, GREATEST_BUDGET),
        None => Ok(default),
    };
    Ok(Words {
        command,
        is_of_lab,
        setting: Setting { kind, hardware: Hardware::default() },
        machine: options.get("machine").cloned(),
        budget: number("budget", 1, 1_000_000)?,
        steps: number("steps", 0, 0)?,
        first: number("first", 1, 1)?,
        observer: options.remove("observer"),
        positional,
    })
}

fn number_in(text: &str, least: u64, most: u64) -> Answer<u64> {
    let is_number = (1..=20).contains(&text.len()) && text.bytes().all(|byte| byte.is_ascii_digit());
    match text.parse() {
        Ok(number) if is_number && (least..=most).contains(&number) => Ok(number),
        _ => usage(),
    }
}

fn bytes_of(words: &Words, place: usize, what: &str) -> Answer<Vec<u8>> {
    bytes_in(&words.positional[place], what)
}

fn bytes_in(name: &str, what: &str) -> Answer<Vec<u8>> {
    match std::fs::read(name) {
        Ok(bytes) if bytes.len() <= MOST_BYTES => Ok(bytes),
        Ok(_) => Err(Stop::Line(7, format!("too long: {what}\n"))),
        Err(_) => Err(Stop::Line(5, format!("read fault: {what}\n"))),
    }
}

fn read_starts(words: &Words, program: &Program) -> Answer<Vec<Start>> {
    if words.positional.len() < 2 {
        return Ok(vec![Start { memory: vec![0; program.elements], touches: Vec::new() }]);
    }
    match String::from_utf8(bytes_of(words, 1, "starts")?) {
        Ok(text) => starts_of(&text, program, matches!(words.command, "seen" | "timeline" | "bound" | "leak")),
        Err(_) => refused("not TOML".into()),
    }
}

fn answered(mut words: Words) -> Answer<u8> {
    if let Some(name) = &words.machine {
        words.setting.hardware = match String::from_utf8(bytes_in(name, "machine")?) {
            Ok(text) => hardware_of(&text)?,
            Err(_) => return refused_machine("not TOML".into()),
        };
    }
    let words = &words;
    match words.command {
        "blackbox" => black_box(&ready_runs(&bytes_of(words, 0, "ready")?)?, words.first, words.budget),
        "gen" => {
            let (size, number) = (&words.positional[0], &words.positional[1]);
            gen_made(number_in(size, 1, 10_000)?, number_in(number, 0, (1 << 31) - 1)?)?;
        }
        _ => return of_program(words),
    }
    Ok(0)
}

/// The commands that read a program.
fn of_program(words: &Words) -> Answer<u8> {
    let text = match String::from_utf8(bytes_of(words, 0, "program")?) {
        Ok(text) => text,
        Err(fault) => return Err(syntax(format!("not UTF-8 at byte {}", fault.utf8_error().valid_up_to()))),
    };
    let program = parsed(&text)?;
    let observer = match &words.observer {
        None => None,
        Some(name) => match program.lattice.find(name) {
            None => return words.usage(),
            label => label,
        },
    };
    let counts = format!("commands {}, mitigates {}\n", program.commands, program.levels.len());
    match words.command {
        "meaning" => meaning(&program, &read_starts(words, &program)?[0], words.steps),
        "recheck" => {
            let certificate = bytes_of(words, 1, "certificate")?;
            Recheck { program: &program, text: &certificate, at: 0, number: 0, command: 0 }.whole()?;
            send(format!("rechecked: {counts}").as_bytes());
        }
        _ => return of_labelled(words, &labelled(program)?, observer, &counts),
    }
    Ok(0)
}

/// The commands that want a typed program.
fn of_labelled(words: &Words, labelled: &Labelled, observer: Option<u8>, counts: &str) -> Answer<u8> {
    let program = &labelled.program;
    match words.command {
        "check" => send(format!("accepted: {counts}").as_bytes()),
        "certify" => send(&certificate(labelled)),
        "infer" => {
            let mut printer = Printer { labelled, out: Vec::with_capacity(2 * program.text.len()) };
            printer.program();
            send(&printer.out);
        }
        "compile" => send(&image_text(labelled, &lowered(labelled, words.is_shared())?)),
        "run" => {
            let image = lowered(labelled, words.is_shared())?;
            return Ok(run(labelled, &image, &read_starts(words, program)?[0], words, observer));
        }
        _ => {
            let image = lowered(labelled, words.is_shared())?;
            let starts = read_starts(words, program)?;
            if matches!(words.command, "seen" | "timeline") {
                send(told_of_runs(labelled, &image, &starts, words, observer).as_bytes());
                return Ok(0);
            }
            let observer = observer.unwrap_or(program.lattice.bottom);
            let asked = Asked { setting: &words.setting, budget: words.budget, observer, is_cut: words.command == "cut" };
            let audit = audit(labelled, &image, &starts, &asked)?;
            let text = match words.command {
                "bound" => bound_text(labelled, &audit, &asked),
                "leak" => leak_text(labelled, &audit, &asked),
                _ => audit.text(labelled, &asked),
            };
            send(text.as_bytes());
        }
    }
    Ok(0)
}

fn main() -> ExitCode {
    let Ok(given) = std::env::args_os().skip(1).map(|word| word.into_string()).collect() else {
        return ExitCode::from(BAD_WORDS);
    };
    match words(given).and_then(answered) {
        Ok(status) => ExitCode::from(status),
        Err(Stop::Line(status, line)) => {
            send(line.as_bytes());
            ExitCode::from(status)
        }
        Err(Stop::Plain(line)) => {
            eprintln!("{line}");
            ExitCode::from(NOT_ANSWERED)
        }
    }
}
