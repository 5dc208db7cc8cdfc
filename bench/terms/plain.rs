//! Erlang terms in plain Rust, whose rows share, for figures to compare with.
//!
//! `plain MEASURE COUNT` does what MEASURE names COUNT times, and prints two numbers: the nanoseconds that this took, and
//! the sum of what was seen in each turn, by which one sees that another program did the same. `main` has the measures.
//! Build it by `rustc -O --edition 2021 bench/terms/plain.rs`.

use std::cmp::Ordering;
use std::env;
use std::io::Write;
use std::iter::Peekable;
use std::mem;
use std::process::ExitCode;
use std::str::{self, Chars};
use std::sync::Arc;
use std::time::{Duration, Instant};

/// How many pairs a list has.
const PAIRS: u32 = 10_000;

/// How many characters the string has.
const CHARACTERS: u32 = 4_000_000;

const QUOTED_WORDS: [&str; 29] = [
    "after", "and", "andalso", "band", "begin", "bnot", "bor", "bsl", "bsr", "bxor", "case",
    "catch", "cond", "div", "else", "end", "fun", "if", "let", "maybe", "not", "of", "or",
    "orelse", "receive", "rem", "try", "when", "xor",
];

type Atom = Arc<str>;

#[derive(Clone, PartialEq, Eq)]
enum Term {
    Int(i64),
    Atom(Atom),
    /// No measure makes one.
    #[allow(dead_code)]
    Pid(u64),
    Tuple(Row),
    List(Row),
}

/// The elements of a tuple or a list: those of a row from a place on.
#[derive(Clone)]
struct Row {
    items: Arc<Vec<Term>>,
    from: usize,
}

impl Row {
    fn new(items: Vec<Term>) -> Row {
        let items = Arc::new(items);
        Row { items, from: 0 }
    }

    fn as_slice(&self) -> &[Term] {
        &self.items[self.from..]
    }

    /// The row behind the first element, or the empty row of an empty one.
    fn rest(&self) -> Row {
        Row {
            items: self.items.clone(),
            from: self.items.len().min(self.from + 1),
        }
    }
}

impl PartialEq for Row {
    fn eq(&self, other: &Row) -> bool {
        self.as_slice() == other.as_slice()
    }
}

impl Eq for Row {}

impl Term {
    /// The place of the term's kind in the order.
    fn kind(&self) -> u8 {
        match self {
            Term::Int(_) => 0,
            Term::Atom(_) => 1,
            Term::Pid(_) => 2,
            Term::Tuple(_) => 3,
            Term::List(_) => 4,
        }
    }
}

impl PartialOrd for Term {
    fn partial_cmp(&self, other: &Term) -> Option<Ordering> {
        Some(self.cmp(other))
    }
}

impl Ord for Term {
    fn cmp(&self, other: &Term) -> Ordering {
        match (self, other) {
            (Term::Int(m), Term::Int(n)) => m.cmp(n),
            (Term::Atom(a), Term::Atom(b)) => a.cmp(b),
            (Term::Pid(m), Term::Pid(n)) => m.cmp(n),
            (Term::Tuple(a), Term::Tuple(b)) => {
                let (a, b) = (a.as_slice(), b.as_slice());
                a.len().cmp(&b.len()).then_with(|| a.cmp(b))
            }
            (Term::List(a), Term::List(b)) => a.as_slice().cmp(b.as_slice()),
            _ => self.kind().cmp(&other.kind()),
        }
    }
}

/// Appends the term's text.
fn print(term: &Term, out: &mut Vec<u8>) {
    match term {
        Term::Int(n) => append(out, format_args!("{n}")),
        Term::Atom(name) => print_atom(name, out),
        Term::Pid(n) => append(out, format_args!("<0.{n}.0>")),
        Term::Tuple(row) => {
            out.push(b'{');
            print_elements(row.as_slice(), out);
            out.push(b'}');
        }
        Term::List(row) => print_list(row.as_slice(), out),
    }
}

fn append(out: &mut Vec<u8>, text: std::fmt::Arguments) {
    // A vector takes whatever is written.
    let _ = out.write_fmt(text);
}

fn print_elements(row: &[Term], out: &mut Vec<u8>) {
    for (place, term) in row.iter().enumerate() {
        if place > 0 {
            out.push(b',');
        }
        print(term, out);
    }
}

fn print_list(row: &[Term], out: &mut Vec<u8>) {
    if row.is_empty() || row.iter().any(|term| printable(term).is_none()) {
        out.push(b'[');
        print_elements(row, out);
        return out.push(b']');
    }
    out.push(b'"');
    for c in row.iter().filter_map(printable) {
        if matches!(c, b'"' | b'\\') {
            out.push(b'\\');
        }
        out.push(c);
    }
    out.push(b'"');
}

/// The character of a string's text that the term is.
fn printable(term: &Term) -> Option<u8> {
    match term {
        Term::Int(n @ 32..=126) => Some(*n as u8),
        _ => None,
    }
}

fn print_atom(name: &str, out: &mut Vec<u8>) {
    let is_plain = name.starts_with(|c: char| c.is_ascii_lowercase())
        && name
            .bytes()
            .all(|b| b.is_ascii_alphanumeric() || b == b'_' || b == b'@')
        && QUOTED_WORDS.binary_search(&name).is_err();
    if is_plain {
        return out.extend_from_slice(name.as_bytes());
    }
    out.push(b'\'');
    for c in name.chars() {
        match c {
            '\'' | '\\' => append(out, format_args!("\\{c}")),
            '\0'..='\x1f' | '\x7f' => append(out, format_args!("\\x{{{:x}}}", u32::from(c))),
            _ => append(out, format_args!("{c}")),
        }
    }
    out.push(b'\'');
}

/// The list that a text of one string and a dot is.
fn read(text: &[u8]) -> Option<Term> {
    let mut chars = str::from_utf8(text).ok()?.chars().peekable();
    if chars.next() != Some('"') {
        return None;
    }
    let mut items = Vec::new();
    loop {
        let c = match chars.next()? {
            '"' => break,
            '\\' => escape(&mut chars)?,
            c => c,
        };
        items.push(Term::Int(i64::from(u32::from(c))));
    }
    let is_ended = chars.next() == Some('.') && chars.all(|c| c.is_ascii_whitespace());
    is_ended.then(|| Term::List(Row::new(items)))
}

/// The character that stands behind a backslash.
fn escape(chars: &mut Peekable<Chars>) -> Option<char> {
    match chars.next()? {
        'b' => Some('\x08'),
        'd' => Some('\x7f'),
        'e' => Some('\x1b'),
        'f' => Some('\x0c'),
        'n' => Some('\n'),
        'r' => Some('\r'),
        's' => Some(' '),
        't' => Some('\t'),
        'v' => Some('\x0b'),
        '^' => char::from_u32(u32::from(chars.next()?) & 31),
        'x' => hexadecimal(chars),
        first @ '0'..='7' => {
            let mut code = first.to_digit(8)?;
            for _ in 0..2 {
                if let Some(digit) = chars.peek().and_then(|c| c.to_digit(8)) {
                    code = code * 8 + digit;
                    chars.next();
                }
            }
            char::from_u32(code)
        }
        c => Some(c),
    }
}

/// The character of the digits behind `\x`: of two, or of those between braces.
fn hexadecimal(chars: &mut Peekable<Chars>) -> Option<char> {
    if chars.next_if_eq(&'{').is_none() {
        let high = chars.next()?.to_digit(16)?;
        return char::from_u32(high * 16 + chars.next()?.to_digit(16)?);
    }
    let mut code = 0_u32;
    loop {
        match chars.next()? {
            '}' => return char::from_u32(code),
            c => code = code.checked_mul(16)? + c.to_digit(16)?,
        }
    }
}

/// The list `[{key,0},{key,1},..]` of so many pairs, with one atom for all.
fn pairs(key: &Atom, count: u32) -> Term {
    let mut items = Vec::with_capacity(count as usize);
    for n in 0..count {
        items.push(pair(key, n));
    }
    Term::List(Row::new(items))
}

fn pair(key: &Atom, n: u32) -> Term {
    let items = vec![Term::Atom(key.clone()), Term::Int(i64::from(n))];
    Term::Tuple(Row::new(items))
}

/// The text of a string, and of a dot.
fn string_text() -> Vec<u8> {
    let mut text = Vec::with_capacity(CHARACTERS as usize + 4);
    text.push(b'"');
    for n in 0..CHARACTERS {
        text.push(b'a' + (n % 26) as u8);
    }
    text.extend_from_slice(b"\".\n");
    text
}

/// What is seen of a term: an integer's value, or how many elements there are.
fn seen(term: &Term) -> u64 {
    match term {
        Term::Int(n) => *n as u64,
        Term::Atom(_) | Term::Pid(_) => 0,
        Term::Tuple(row) | Term::List(row) => row.as_slice().len() as u64,
    }
}

/// Does something so many times, and gives the time that the turns took, and the sum of what they saw.
fn repeat(count: u32, mut turn: impl FnMut() -> u64) -> (Duration, u64) {
    let (mut time, mut sum) = (Duration::ZERO, 0_u64);
    for _ in 0..count {
        let start = Instant::now();
        sum = sum.wrapping_add(turn());
        time += start.elapsed();
    }
    (time, sum)
}

fn make(count: u32) -> (Duration, u64) {
    let key = Atom::from("key");
    let (mut time, mut sum) = (Duration::ZERO, 0);
    for _ in 0..count {
        let start = Instant::now();
        let list = pairs(&key, PAIRS);
        time += start.elapsed();
        sum += seen(&list);
    }
    (time, sum)
}

fn drop_list(count: u32) -> (Duration, u64) {
    let key = Atom::from("key");
    let (mut time, mut sum) = (Duration::ZERO, 0);
    for _ in 0..count {
        let list = pairs(&key, PAIRS);
        sum += seen(&list);
        let start = Instant::now();
        mem::drop(list);
        time += start.elapsed();
    }
    (time, sum)
}

fn read_string(count: u32) -> (Duration, u64) {
    let text = string_text();
    let (mut time, mut sum) = (Duration::ZERO, 0);
    for _ in 0..count {
        let start = Instant::now();
        let term = read(&text);
        time += start.elapsed();
        sum += term.as_ref().map_or(0, seen);
    }
    (time, sum)
}

/// A copy, made by a call of its own, so that it is made where nothing is done with it either.
#[inline(never)]
fn copied(term: &Term) -> Term {
    term.clone()
}

/// The sum of the integers in the pairs of a list, by heads and tails.
fn walked(list: &Term) -> u64 {
    let Term::List(row) = list else {
        return 0;
    };
    let mut row = row.clone();
    let mut sum = 0_u64;
    while let Some(head) = row.as_slice().first() {
        if let Term::Tuple(pair) = head {
            sum = sum.wrapping_add(pair.as_slice().get(1).map_or(0, seen));
        }
        row = row.rest();
    }
    sum
}

fn walk(count: u32) -> (Duration, u64) {
    let list = a_list();
    repeat(count, || walked(&list))
}

/// A copy takes less than to look at the clock, so it is looked at before and behind all of them.
fn copy(term: &Term, count: u32) -> (Duration, u64) {
    let start = Instant::now();
    let mut sum = 0_u64;
    for _ in 0..count {
        sum = sum.wrapping_add(seen(&copied(term)));
    }
    (start.elapsed(), sum)
}

/// Whether two lists are equal that were made apart.
fn same(count: u32) -> (Duration, u64) {
    let (one, other) = (a_list(), a_list());
    repeat(count, || u64::from(one == other))
}

/// Whether the order has two lists at one place that were made apart.
fn order(count: u32) -> (Duration, u64) {
    let (one, other) = (a_list(), a_list());
    repeat(count, || u64::from(one.cmp(&other) == Ordering::Equal))
}

fn show(term: &Term, count: u32) -> (Duration, u64) {
    repeat(count, || {
        let mut out = Vec::new();
        print(term, &mut out);
        out.len() as u64
    })
}

fn show_string(count: u32) -> (Duration, u64) {
    match read(&string_text()) {
        Some(term) => show(&term, count),
        None => (Duration::ZERO, 0),
    }
}

fn a_list() -> Term {
    pairs(&Atom::from("key"), PAIRS)
}

/// Makes one list of COUNT pairs.
fn hold(count: u32) -> (Duration, u64) {
    let list = pairs(&Atom::from("key"), count);
    (Duration::ZERO, seen(&list))
}

fn main() -> ExitCode {
    let words: Vec<_> = env::args().collect();
    let count = words.get(2).and_then(|word| word.parse().ok()).unwrap_or(0);
    let (time, sum) = match words.get(1).map(String::as_str) {
        Some("nothing") => (Duration::ZERO, 0),
        Some("integer") => copy(&Term::Int(7), count),
        Some("make") => make(count),
        Some("copy") => copy(&a_list(), count),
        Some("walk") => walk(count),
        Some("same") => same(count),
        Some("order") => order(count),
        Some("print") => show(&a_list(), count),
        Some("drop") => drop_list(count),
        Some("read_string") => read_string(count),
        Some("print_string") => show_string(count),
        Some("hold") => hold(count),
        _ => {
            eprintln!("usage: plain MEASURE COUNT");
            return ExitCode::from(2);
        }
    };
    println!("{} {sum}", time.as_nanos());
    ExitCode::SUCCESS
}
