//! Calls and jobs evaluated in plain Rust, for figures to compare with: a walk over the trees of expressions, with terms whose
//! rows share.
//!
//! `plain_eval FOLDER TURNS` does as `main.rattle` does, for the part of Erlang that the measured modules are written in, and with
//! the two limits on calls. Its functions recurse as deep as calls are nested; a call in tail position is a turn of a loop.
//! Build it by `rustc -O --edition 2021 bench/evaluate/plain_eval.rs`.

use std::cmp::Ordering;
use std::collections::HashMap;
use std::env;
use std::fs;
use std::sync::Arc;
use std::time::Instant;

type Atom = Arc<str>;

#[derive(Clone, PartialEq, Eq)]
enum Term {
    Int(i64),
    Atom(Atom),
    Pid(u64),
    Tuple(Row),
    List(Row),
}

/// The elements of a tuple or a list: those of a row from a place on.
#[derive(Clone)]
struct Row {
    items: Arc<Vec<Term>>,
    from: usize,
}

impl Row {
    fn new(items: Vec<Term>) -> Row {
        Row { items: Arc::new(items), from: 0 }
    }

    fn as_slice(&self) -> &[Term] {
        &self.items[self.from..]
    }

    /// The row behind so many elements.
    fn behind(&self, count: usize) -> Row {
        Row { items: self.items.clone(), from: self.from + count }
    }
}

impl PartialEq for Row {
    fn eq(&self, other: &Row) -> bool {
        self.as_slice() == other.as_slice()
    }
}

impl Eq for Row {}

impl Term {
    fn kind(&self) -> u8 {
        match self {
            Term::Int(_) => 0,
            Term::Atom(_) => 1,
            Term::Pid(_) => 2,
            Term::Tuple(_) => 3,
            Term::List(row) => 4 + u8::from(!row.as_slice().is_empty()),
        }
    }
}

impl PartialOrd for Term {
    fn partial_cmp(&self, other: &Term) -> Option<Ordering> {
        Some(self.cmp(other))
    }
}

impl Ord for Term {
    fn cmp(&self, other: &Term) -> Ordering {
        match (self, other) {
            (Term::Int(m), Term::Int(n)) => m.cmp(n),
            (Term::Atom(a), Term::Atom(b)) => a.cmp(b),
            (Term::Pid(m), Term::Pid(n)) => m.cmp(n),
            (Term::Tuple(a), Term::Tuple(b)) => {
                let (a, b) = (a.as_slice(), b.as_slice());
                a.len().cmp(&b.len()).then_with(|| a.cmp(b))
            }
            (Term::List(a), Term::List(b)) => a.as_slice().cmp(b.as_slice()),
            _ => self.kind().cmp(&other.kind()),
        }
    }
}

/// An expression or a pattern. A variable is the place where it is bound.
enum Expr {
    Literal(Term),
    Variable(usize),
    Anything,
    Tuple(Vec<Expr>),
    /// Elements, and a tail.
    List(Vec<Expr>, Option<Box<Expr>>),
    Operator(&'static str, Box<Expr>, Box<Expr>),
    Call(Atom, Vec<Expr>),
    Case(Box<Expr>, Vec<Clause>),
}

struct Clause {
    patterns: Vec<Expr>,
    guard: Vec<Expr>,
    body: Vec<Expr>,
}

type Module = HashMap<(Atom, usize), Vec<Clause>>;

// The reader.

const SIGNS: [&str; 23] = [
    "->", "=:=", "=/=", "==", "/=", "=<", ">=", "<", ">", "+", "-", "*", "(", ")", "[", "]", "{", "}", ",", ";", "|", "/", ".",
];

/// The operators, by falling precedence.
const LEVELS: [&[&str]; 3] = [&["*", "div", "rem"], &["+", "-"], &["==", "/=", "=:=", "=/=", "<", ">", "=<", ">="]];

fn tokens(text: &str) -> Vec<&str> {
    let (mut rest, mut found) = (text.trim_start(), Vec::new());
    while !rest.is_empty() {
        let word = rest.find(|c: char| !c.is_alphanumeric() && c != '_').unwrap_or(rest.len());
        let len = match word {
            0 => SIGNS.iter().find(|sign| rest.starts_with(**sign)).expect("a token").len(),
            len => len,
        };
        found.push(&rest[..len]);
        rest = rest[len..].trim_start();
    }
    found
}

struct Reader<'a> {
    tokens: Vec<&'a str>,
    at: usize,
    /// The variables that are bound, by their places.
    bound: Vec<&'a str>,
}

impl<'a> Reader<'a> {
    fn peek(&self) -> &'a str {
        self.tokens[self.at]
    }

    fn next(&mut self) -> &'a str {
        self.at += 1;
        self.tokens[self.at - 1]
    }

    fn takes(&mut self, token: &str) -> bool {
        let there = self.peek() == token;
        self.at += usize::from(there);
        there
    }

    fn expect(&mut self, token: &str) {
        assert_eq!(self.next(), token, "token {}", self.at);
    }

    /// What stands between two brackets, the first of which is read.
    fn row(&mut self, close: &str) -> Vec<Expr> {
        let mut row = Vec::new();
        while self.peek() != close && self.peek() != "|" {
            row.push(self.expression(0));
            if !self.takes(",") {
                break;
            }
        }
        row
    }

    fn primary(&mut self) -> Expr {
        let token = self.next();
        let first = token.chars().next().expect("a character");
        match token {
            "(" => {
                let inner = self.expression(0);
                self.expect(")");
                inner
            }
            "{" => {
                let row = self.row("}");
                self.expect("}");
                literal_or(row, Expr::Tuple, |items| Term::Tuple(Row::new(items)))
            }
            "[" => {
                let row = self.row("]");
                let tail = self.takes("|").then(|| Box::new(self.expression(0)));
                self.expect("]");
                match tail {
                    None => literal_or(row, |row| Expr::List(row, None), |items| Term::List(Row::new(items))),
                    tail => Expr::List(row, tail),
                }
            }
            "-" => match self.primary() {
                Expr::Literal(Term::Int(n)) => Expr::Literal(Term::Int(-n)),
                operand => Expr::Operator("-", Box::new(Expr::Literal(Term::Int(0))), Box::new(operand)),
            },
            "case" => self.case(),
            "_" => Expr::Anything,
            _ if first.is_ascii_digit() => Expr::Literal(Term::Int(token.parse().expect("an integer"))),
            _ if first.is_uppercase() || first == '_' => self.variable(token),
            _ if self.takes("(") => {
                let row = self.row(")");
                self.expect(")");
                Expr::Call(token.into(), row)
            }
            _ => Expr::Literal(Term::Atom(token.into())),
        }
    }

    fn variable(&mut self, name: &'a str) -> Expr {
        let place = self.bound.iter().position(|bound| *bound == name);
        Expr::Variable(place.unwrap_or_else(|| {
            self.bound.push(name);
            self.bound.len() - 1
        }))
    }

    /// An expression whose operators are of these levels or stronger.
    fn expression(&mut self, weaker: usize) -> Expr {
        if weaker == LEVELS.len() {
            return self.primary();
        }
        let level = LEVELS[LEVELS.len() - 1 - weaker];
        let mut left = self.expression(weaker + 1);
        while let Some(operator) = level.iter().find(|operator| **operator == self.peek()) {
            self.at += 1;
            left = Expr::Operator(operator, Box::new(left), Box::new(self.expression(weaker + 1)));
        }
        left
    }

    fn case(&mut self) -> Expr {
        let subject = Box::new(self.expression(0));
        self.expect("of");
        let mut clauses = Vec::new();
        while !self.takes("end") {
            let outside = self.bound.len();
            let patterns = vec![self.expression(0)];
            clauses.push(self.clause(patterns));
            self.bound.truncate(outside);
            self.takes(";");
        }
        Expr::Case(subject, clauses)
    }

    /// The guard and the body behind these patterns.
    fn clause(&mut self, patterns: Vec<Expr>) -> Clause {
        let mut guard = Vec::new();
        while self.takes("when") || (!guard.is_empty() && self.takes(",")) {
            guard.push(self.expression(0));
        }
        self.expect("->");
        let mut body = vec![self.expression(0)];
        while self.takes(",") {
            body.push(self.expression(0));
        }
        Clause { patterns, guard, body }
    }

    /// The functions of a source; its attributes are skipped.
    fn module(mut self) -> Module {
        let mut module = Module::new();
        while self.at < self.tokens.len() {
            if self.takes("-") {
                while self.next() != "." {}
                continue;
            }
            self.bound.clear();
            let name: Atom = self.next().into();
            self.expect("(");
            let patterns = self.row(")");
            self.expect(")");
            let arity = patterns.len();
            let clause = self.clause(patterns);
            module.entry((name, arity)).or_default().push(clause);
            self.at += 1;
        }
        module
    }
}

/// The literal of a row of literals, or else what is made of the row.
fn literal_or(row: Vec<Expr>, made: impl Fn(Vec<Expr>) -> Expr, literal: impl Fn(Vec<Term>) -> Term) -> Expr {
    let terms: Option<Vec<Term>> = row.iter().map(|it| if let Expr::Literal(t) = it { Some(t.clone()) } else { None }).collect();
    terms.map_or_else(|| made(row), |terms| Expr::Literal(literal(terms)))
}

fn reader(text: &str) -> Reader<'_> {
    Reader { tokens: tokens(text), at: 0, bound: Vec::new() }
}

// Evaluation.

const MOST_CALLS: u32 = 10_000;
const MOST_NESTED: u32 = 200;

/// The reason of an exit.
type Exit = &'static str;

/// What a call in tail position asks for, or a value.
enum Step<'a> {
    Value(Term),
    Tail(&'a [Clause], Vec<Term>),
}

struct Evaluator<'a> {
    module: &'a Module,
    calls: u32,
}

impl<'a> Evaluator<'a> {
    fn call(&mut self, mut clauses: &'a [Clause], mut arguments: Vec<Term>, nested: u32) -> Result<Term, Exit> {
        if nested > MOST_NESTED {
            return Err("system_limit");
        }
        loop {
            let (clause, mut bound) = self.select(clauses, &arguments, &[])?.ok_or("function_clause")?;
            match self.body(&clause.body, &mut bound, nested)? {
                Step::Value(term) => return Ok(term),
                Step::Tail(next, terms) => (clauses, arguments) = (next, terms),
            }
        }
    }

    /// The first clause that takes the terms, and what is bound in it.
    fn select(&mut self, clauses: &'a [Clause], terms: &[Term], base: &[Term]) -> Result<Option<(&'a Clause, Vec<Term>)>, Exit> {
        for clause in clauses {
            let mut bound = base.to_vec();
            let fits = clause.patterns.iter().zip(terms).all(|(pattern, term)| matched(pattern, term, &mut bound));
            if fits && clause.guard.iter().all(|test| self.holds(test, &mut bound)) {
                return Ok(Some((clause, bound)));
            }
        }
        Ok(None)
    }

    fn holds(&mut self, test: &'a Expr, bound: &mut Vec<Term>) -> bool {
        matches!(self.value(test, bound, 0), Ok(Term::Atom(name)) if &*name == "true")
    }

    fn body(&mut self, body: &'a [Expr], bound: &mut Vec<Term>, nested: u32) -> Result<Step<'a>, Exit> {
        let (last, before) = body.split_last().expect("a body");
        for expression in before {
            self.value(expression, bound, nested)?;
        }
        self.step(last, bound, nested)
    }

    /// An expression in tail position.
    fn step(&mut self, expression: &'a Expr, bound: &mut Vec<Term>, nested: u32) -> Result<Step<'a>, Exit> {
        match expression {
            Expr::Call(name, row) => {
                let terms = self.values(row, bound, nested)?;
                self.count()?;
                match self.module.get(&(name.clone(), terms.len())) {
                    Some(clauses) => Ok(Step::Tail(clauses, terms)),
                    None => Ok(Step::Value(built_in(name, &terms)?)),
                }
            }
            Expr::Case(subject, clauses) => {
                let term = self.value(subject, bound, nested)?;
                let (clause, mut inside) = self.select(clauses, &[term], bound)?.ok_or("case_clause")?;
                self.body(&clause.body, &mut inside, nested)
            }
            _ => Ok(Step::Value(self.value(expression, bound, nested)?)),
        }
    }

    fn count(&mut self) -> Result<(), Exit> {
        if self.calls == MOST_CALLS {
            return Err("system_limit");
        }
        self.calls += 1;
        Ok(())
    }

    fn values(&mut self, row: &'a [Expr], bound: &mut Vec<Term>, nested: u32) -> Result<Vec<Term>, Exit> {
        row.iter().map(|expression| self.value(expression, bound, nested)).collect()
    }

    fn value(&mut self, expression: &'a Expr, bound: &mut Vec<Term>, nested: u32) -> Result<Term, Exit> {
        match expression {
            Expr::Literal(term) => Ok(term.clone()),
            Expr::Variable(place) => Ok(bound[*place].clone()),
            Expr::Anything => Err("undef"),
            Expr::Tuple(row) => Ok(Term::Tuple(Row::new(self.values(row, bound, nested)?))),
            Expr::List(row, tail) => {
                let mut items = self.values(row, bound, nested)?;
                if let Some(tail) = tail {
                    match self.value(tail, bound, nested)? {
                        Term::List(behind) => items.extend_from_slice(behind.as_slice()),
                        _ => return Err("not_in_profile"),
                    }
                }
                Ok(Term::List(Row::new(items)))
            }
            Expr::Operator(operator, left, right) => {
                let left = self.value(left, bound, nested)?;
                let right = self.value(right, bound, nested)?;
                operated(operator, &left, &right)
            }
            Expr::Call(..) | Expr::Case(..) => match self.step(expression, bound, nested)? {
                Step::Value(term) => Ok(term),
                Step::Tail(clauses, terms) => self.call(clauses, terms, nested + 1),
            },
        }
    }
}

/// Whether a term matches a pattern, which binds what isn't bound yet.
fn matched(pattern: &Expr, term: &Term, bound: &mut Vec<Term>) -> bool {
    match (pattern, term) {
        (Expr::Anything, _) => true,
        (Expr::Literal(literal), _) => literal == term,
        (Expr::Variable(place), _) if *place < bound.len() => bound[*place] == *term,
        (Expr::Variable(_), _) => {
            bound.push(term.clone());
            true
        }
        (Expr::Tuple(row), Term::Tuple(items)) => {
            let items = items.as_slice();
            row.len() == items.len() && row.iter().zip(items).all(|(it, item)| matched(it, item, bound))
        }
        (Expr::List(row, tail), Term::List(items)) => {
            let (count, slice) = (row.len(), items.as_slice());
            let enough = if tail.is_some() { count <= slice.len() } else { count == slice.len() };
            enough
                && row.iter().zip(slice).all(|(it, item)| matched(it, item, bound))
                && tail.as_ref().is_none_or(|tail| matched(tail, &Term::List(items.behind(count)), bound))
        }
        _ => false,
    }
}

fn boolean(holds: bool) -> Term {
    Term::Atom(if holds { "true" } else { "false" }.into())
}

fn operated(operator: &str, left: &Term, right: &Term) -> Result<Term, Exit> {
    match operator {
        "==" | "=:=" => return Ok(boolean(left == right)),
        "/=" | "=/=" => return Ok(boolean(left != right)),
        "<" => return Ok(boolean(left < right)),
        ">" => return Ok(boolean(left > right)),
        "=<" => return Ok(boolean(left <= right)),
        ">=" => return Ok(boolean(left >= right)),
        _ => (),
    }
    let (Term::Int(m), Term::Int(n)) = (left, right) else {
        return Err("badarith");
    };
    let found = match operator {
        "+" => m.checked_add(*n),
        "-" => m.checked_sub(*n),
        "*" => m.checked_mul(*n),
        _ if *n == 0 => return Err("badarith"),
        "div" => m.checked_div(*n),
        _ => Some(m.checked_rem(*n).unwrap_or(0)),
    };
    found.map(Term::Int).ok_or("system_limit")
}

fn built_in(name: &str, terms: &[Term]) -> Result<Term, Exit> {
    match (name, terms) {
        ("element", [Term::Int(n), Term::Tuple(row)]) => {
            let place = usize::try_from(*n).ok().and_then(|n| n.checked_sub(1));
            place.and_then(|place| row.as_slice().get(place)).cloned().ok_or("badarg")
        }
        ("element", [_, _]) => Err("badarg"),
        _ => Err("undef"),
    }
}

// The program.

/// What is seen of a term: an integer's value, or how many elements there are.
fn seen(term: &Term) -> u64 {
    match term {
        Term::Int(n) => n.unsigned_abs(),
        Term::Atom(_) | Term::Pid(_) => 0,
        Term::Tuple(row) | Term::List(row) => row.as_slice().len() as u64,
    }
}

/// Evaluates a call.
fn called(module: &Module, name: &Atom, arguments: Vec<Term>) -> Result<Term, Exit> {
    let clauses = module.get(&(name.clone(), arguments.len())).ok_or("undef")?;
    Evaluator { module, calls: 0 }.call(clauses, arguments, 0)
}

/// What a server does with a client's call: the reply, and the state behind it.
fn served(module: &Module, message: &Term, state: &Term) -> Result<(Term, Term), Exit> {
    let Term::Tuple(parts) = message else {
        return Err("no message");
    };
    let [_, from, request] = parts.as_slice() else {
        return Err("no call");
    };
    let name: Atom = "handle_call".into();
    match called(module, &name, vec![request.clone(), from.clone(), state.clone()])? {
        Term::Tuple(row) => match row.as_slice() {
            [Term::Atom(word), reply, state] if &**word == "reply" => Ok((reply.clone(), state.clone())),
            _ => Err("bad_return_value"),
        },
        _ => Err("bad_return_value"),
    }
}

fn main() {
    let words: Vec<String> = env::args().collect();
    let read = |name| fs::read_to_string(format!("{}/{name}", words[1])).expect("a file");
    let turns: u32 = words[2].parse().expect("a number of turns");
    let (source, input) = (read("source"), read("input"));
    let module = reader(&source).module();
    let Expr::Literal(Term::Tuple(input)) = reader(&input).expression(0) else {
        panic!("no input");
    };
    let [Term::Atom(word), second, third] = input.as_slice() else {
        panic!("no call and no job");
    };
    let from = Term::Tuple(Row::new(vec![Term::Pid(0), Term::Int(1)]));
    let message = Term::Tuple(Row::new(vec![Term::Atom("$gen_call".into()), from, third.clone()]));
    let mut sum = 0_u64;
    let start = Instant::now();
    for _ in 0..turns {
        let told = match (&**word, second, third) {
            ("job", state, _) => served(&module, &message, state).map(|(reply, _)| reply),
            (_, Term::Atom(name), Term::List(row)) => called(&module, name, row.as_slice().to_vec()),
            _ => Err("no call and no job"),
        };
        sum = sum.wrapping_add(seen(&told.expect("a value")));
    }
    println!("{} {sum}", start.elapsed().as_nanos());
}
