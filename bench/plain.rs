//! The commands of the shell as they are written in plain Rust, for figures to compare with.
//!
//! `plain ROOT VSN` reads the files below ROOT, boots VSN, and then reads a command a line from standard input.
//! docs/COMMANDS.md describes the commands; those that [`Shell::answer`] doesn't name are no commands here.
//! No source is read: version A boots the processes of the example tree's release A, whose callbacks are
//! written here by hand, and every other version an empty node. Of terms, atoms, decimal integers, tuples and
//! lists are read, and what is no such term is no command. Build it by `rustc -O --edition 2021 bench/plain.rs`.

use std::collections::{BTreeMap, BTreeSet, HashMap, VecDeque};
use std::io::{self, BufRead, BufReader, BufWriter, Read, Write};
use std::num::NonZeroUsize;
use std::ops::Range;
use std::path::Path;
use std::process::ExitCode;
use std::rc::Rc;
use std::{env, fs, str};

const LONGEST_LINE: usize = 65_536;
const LONGEST_ATOM: usize = 255;
const DEEPEST_TERM: usize = 256;

const QUOTED_WORDS: [&str; 29] = [
    "after", "and", "andalso", "band", "begin", "bnot", "bor", "bsl", "bsr", "bxor", "case",
    "catch", "cond", "div", "else", "end", "fun", "if", "let", "maybe", "not", "of", "or",
    "orelse", "receive", "rem", "try", "when", "xor",
];

/// The modules that release A loads, in order, and where their sources are.
const MODULES_OF_A: [(&str, &str); 3] = [
    ("ctr_app", "lib/ctr_app-1/src/ctr_app.erl"),
    ("ctr", "lib/ctr_app-1/src/ctr.erl"),
    ("lp", "lib/ctr_app-1/src/lp.erl"),
];

/// The code of the files, by their paths below ROOT.
type Files = HashMap<String, Rc<Code>>;

#[derive(PartialEq, Eq)]
struct Code {
    bytes: Vec<u8>,
}

/// The name of a refusal, or the reason of an end, as it prints.
type Reason = &'static str;

#[derive(Clone, PartialEq, Eq)]
enum Term {
    Int(i64),
    Atom(Rc<str>),
    Tuple(Rc<[Term]>),
    List(Rc<[Term]>),
}

impl Term {
    /// The name of an atom, or an empty text.
    fn name(&self) -> &str {
        match self {
            Term::Atom(name) => name,
            _ => "",
        }
    }

    /// The elements of a tuple, or none.
    fn elements(&self) -> &[Term] {
        match self {
            Term::Tuple(elements) => elements,
            _ => &[],
        }
    }

    /// The printable character that an integer is.
    fn character(&self) -> Option<char> {
        match self {
            Term::Int(n @ 32..=126) => u8::try_from(*n).ok().map(char::from),
            _ => None,
        }
    }
}

/// A message in a mailbox.
#[derive(Clone, PartialEq, Eq)]
enum Message {
    /// `{'$gen_call',{<0.0.0>,number},term}`
    Call { number: u64, term: Term },
    /// `{'$gen_cast',term}`
    Cast(Term),
    /// Any other term.
    Info(Term),
}

impl Message {
    /// The message that this term is.
    fn of_term(term: Term) -> Self {
        match term.elements() {
            [word, cast] if word.name() == "$gen_cast" => Message::Cast(cast.clone()),
            _ => Message::Info(term),
        }
    }

    /// What a call asks for, also where it was sent and there is nobody to reply to.
    fn request(&self) -> Option<&Term> {
        match self {
            Message::Call { term, .. } => Some(term),
            Message::Cast(_) => None,
            Message::Info(term) => match term.elements() {
                [word, _, term] if word.name() == "$gen_call" => Some(term),
                _ => None,
            },
        }
    }

    /// The printable character that a message is.
    fn character(&self) -> Option<char> {
        match self {
            Message::Info(term) => term.character(),
            _ => None,
        }
    }
}

/// One load of a module.
#[derive(Clone, PartialEq, Eq)]
struct Instance {
    serial: u64,
    code: Rc<Code>,
}

/// The instances of a module.
struct Module {
    name: Rc<str>,
    current: Option<Instance>,
    old: Option<Instance>,
}

/// The modules in the order of their first loads.
#[derive(Default)]
struct Modules {
    entries: Vec<Module>,
    places: HashMap<Rc<str>, usize>,
    loads: u64,
}

/// What takes a step on the modules back.
enum Change {
    /// The step changed nothing.
    Nothing,
    /// A module was added at the end, and left its place with old code alone.
    Added { left: Option<Box<(usize, Module)>> },
    /// The current code of the module at this place became old, in place of this old code.
    Replaced { at: usize, old: Option<Instance> },
    /// The current code of the module at this place became old.
    Deleted { at: usize },
    /// The module at this place lost this old code.
    Purged { at: usize, old: Instance },
    /// This module left this place.
    Removed { at: usize, module: Box<Module> },
}

impl Change {
    /// The old code that went away.
    fn purged(&self) -> Option<&Instance> {
        match self {
            Change::Nothing | Change::Deleted { .. } => None,
            Change::Added { left } => left.as_ref()?.1.old.as_ref(),
            Change::Replaced { old, .. } => old.as_ref(),
            Change::Purged { old, .. } => Some(old),
            Change::Removed { module, .. } => module.old.as_ref(),
        }
    }
}

impl Modules {
    fn get(&self, name: &str) -> Option<&Module> {
        self.places.get(name).map(|at| &self.entries[*at])
    }

    fn current(&self, name: &str) -> Option<&Instance> {
        self.get(name)?.current.as_ref()
    }

    fn push(&mut self, module: Module) {
        self.places.insert(module.name.clone(), self.entries.len());
        self.entries.push(module);
    }

    fn insert(&mut self, at: usize, module: Module) {
        self.entries.insert(at, module);
        self.number_from(at);
    }

    fn remove(&mut self, at: usize) -> Module {
        let module = self.entries.remove(at);
        self.places.remove(&module.name);
        self.number_from(at);
        module
    }

    /// Gives the modules from this place on their places anew.
    fn number_from(&mut self, at: usize) {
        for (place, module) in self.entries.iter().enumerate().skip(at) {
            match self.places.get_mut(&module.name) {
                Some(old) => *old = place,
                None => {
                    self.places.insert(module.name.clone(), place);
                }
            }
        }
    }

    fn load(&mut self, name: &str, code: Rc<Code>) -> Change {
        self.loads += 1;
        let new = Instance {
            serial: self.loads,
            code,
        };
        let left = match self.places.get(name).copied() {
            Some(at) => {
                let module = &mut self.entries[at];
                if let Some(current) = module.current.replace(new) {
                    let old = module.old.replace(current);
                    return Change::Replaced { at, old };
                }
                // Purging the old code takes the module out of the table, and the load adds it anew.
                let new = module.current.take();
                let left = self.remove(at);
                self.push(Module {
                    name: left.name.clone(),
                    current: new,
                    old: None,
                });
                Some(Box::new((at, left)))
            }
            None => {
                self.push(Module {
                    name: name.into(),
                    current: Some(new),
                    old: None,
                });
                None
            }
        };
        Change::Added { left }
    }

    fn delete(&mut self, name: &str) -> Option<Change> {
        let at = *self.places.get(name)?;
        let module = &mut self.entries[at];
        if module.old.is_some() {
            return None;
        }
        module.old = module.current.take();
        Some(Change::Deleted { at })
    }

    fn purge(&mut self, name: &str) -> Change {
        let Some(&at) = self.places.get(name) else {
            return Change::Nothing;
        };
        if self.entries[at].current.is_none() {
            return Change::Removed {
                at,
                module: Box::new(self.remove(at)),
            };
        }
        match self.entries[at].old.take() {
            Some(old) => Change::Purged { at, old },
            None => Change::Nothing,
        }
    }

    fn undo(&mut self, change: Change) {
        match change {
            Change::Nothing => {}
            Change::Added { left } => {
                self.remove(self.entries.len() - 1);
                if let Some(left) = left {
                    let (at, module) = *left;
                    self.insert(at, module);
                }
                self.loads -= 1;
            }
            Change::Replaced { at, old } => {
                let module = &mut self.entries[at];
                module.current = module.old.take();
                module.old = old;
                self.loads -= 1;
            }
            Change::Deleted { at } => {
                let module = &mut self.entries[at];
                module.current = module.old.take();
            }
            Change::Purged { at, old } => self.entries[at].old = Some(old),
            Change::Removed { at, module } => self.insert(at, *module),
        }
    }
}

/// Where a process rests.
#[derive(Clone, PartialEq, Eq)]
enum Place {
    /// A gen_server of module `ctr`.
    Server { state: Term },
    /// The loop of this load of module `lp`.
    Loop { state: Term, code: Instance },
}

/// A message that a process has taken.
#[derive(PartialEq, Eq)]
struct Job {
    pid: u64,
    turn: u64,
    place: Place,
    message: Message,
    /// The code that the callback is entered in.
    entered: Option<Instance>,
    /// The current code that the callback can come to by a remote call.
    reached: Option<Instance>,
}

/// What a callback came to.
enum Outcome {
    Rest { reply: Option<Term>, place: Place },
    Exit(Reason),
}

/// A job that was run.
struct Done {
    job: Rc<Job>,
    outcome: Outcome,
}

/// What the client is told of the call of this number.
enum Reply {
    Reply { number: u64, term: Term },
    Down { number: u64, reason: Reason },
}

impl Reply {
    fn number(&self) -> u64 {
        match self {
            Reply::Reply { number, .. } | Reply::Down { number, .. } => *number,
        }
    }
}

struct Process {
    name: Rc<str>,
    place: Place,
    running: Option<Rc<Job>>,
    turn: u64,
    mailbox: VecDeque<Message>,
    /// The numbers of its open calls.
    calls: BTreeSet<u64>,
}

impl Process {
    /// The position of the message that it takes next.
    fn next(&self) -> Option<usize> {
        match &self.place {
            Place::Server { .. } => (!self.mailbox.is_empty()).then_some(0),
            Place::Loop { .. } => self.mailbox.iter().position(|it| received(it).is_some()),
        }
    }

    fn uses(&self, instance: &Instance) -> bool {
        let codes = match (&self.running, &self.place) {
            (Some(job), _) => [job.entered.as_ref(), job.reached.as_ref()],
            (None, Place::Loop { code, .. }) => [Some(code), None],
            (None, Place::Server { .. }) => [None, None],
        };
        let mut codes = codes.into_iter().flatten();
        codes.any(|code| code.serial == instance.serial)
    }
}

#[derive(Default)]
struct Processes {
    table: BTreeMap<u64, Process>,
    names: HashMap<Rc<str>, u64>,
    last_pid: u64,
}

impl Processes {
    fn start(&mut self, name: &str, place: Place) {
        self.last_pid += 1;
        let process = Process {
            name: name.into(),
            place,
            running: None,
            turn: 0,
            mailbox: VecDeque::new(),
            calls: BTreeSet::new(),
        };
        self.insert(self.last_pid, process);
    }

    fn insert(&mut self, pid: u64, process: Process) {
        self.names.insert(process.name.clone(), pid);
        self.table.insert(pid, process);
    }

    fn remove(&mut self, pid: u64) -> Option<Process> {
        let process = self.table.remove(&pid)?;
        self.names.remove(&process.name);
        Some(process)
    }

    fn named(&self, name: &str) -> Result<u64, Reason> {
        self.names.get(name).copied().ok_or("no_proc")
    }

    fn get(&self, pid: u64) -> Result<&Process, Reason> {
        self.table.get(&pid).ok_or("no_proc")
    }

    fn get_mut(&mut self, pid: u64) -> Result<&mut Process, Reason> {
        self.table.get_mut(&pid).ok_or("no_proc")
    }

    /// The processes that use this code.
    fn users(&self, instance: &Instance) -> Vec<u64> {
        let users = self.table.iter().filter(|(_, it)| it.uses(instance));
        users.map(|(pid, _)| *pid).collect()
    }
}

/// Runs a callback: those of `ctr` and `lp` are written by hand.
fn run_job(job: &Job) -> Outcome {
    let rest = |(reply, place)| Outcome::Rest { reply, place };
    match (&job.place, &job.entered) {
        (Place::Server { state }, Some(_)) => handle(&job.message, state).map(rest),
        (Place::Loop { state, code }, _) => turn(job, state, code).map(rest),
        (Place::Server { .. }, None) => Err("undef"),
    }
    .unwrap_or_else(Outcome::Exit)
}

/// `handle_call` and `handle_cast` of `ctr`. It has no `handle_info`.
fn handle(message: &Message, state: &Term) -> Result<(Option<Term>, Place), Reason> {
    let (reply, state) = match (message, message.request()) {
        (Message::Cast(term), _) => match term.elements() {
            [word, state] if word.name() == "set" => (None, state.clone()),
            _ => return Err("function_clause"),
        },
        (_, Some(term)) => {
            let state = match term.name() {
                "bump" => bumped(state)?,
                "get" => state.clone(),
                _ => return Err("function_clause"),
            };
            (Some(state.clone()), state)
        }
        (_, None) => (None, state.clone()),
    };
    Ok((reply, Place::Server { state }))
}

fn bumped(state: &Term) -> Result<Term, Reason> {
    match state {
        Term::Int(n) => n.checked_add(1).map(Term::Int).ok_or("system_limit"),
        _ => Err("badarith"),
    }
}

/// What the loop of `lp` receives, by its clauses.
enum Received<'a> {
    CodeSwitch,
    Set(&'a Term),
    Get,
}

fn received(message: &Message) -> Option<Received<'_>> {
    if let Some(term) = message.request() {
        return (term.name() == "get").then_some(Received::Get);
    }
    let Message::Info(term) = message else {
        return None;
    };
    match term.elements() {
        [] if term.name() == "code_switch" => Some(Received::CodeSwitch),
        [word, state] if word.name() == "set" => Some(Received::Set(state)),
        _ => None,
    }
}

/// A turn of the loop of `lp`.
fn turn(job: &Job, state: &Term, code: &Instance) -> Result<(Option<Term>, Place), Reason> {
    let (reply, state, code) = match received(&job.message) {
        Some(Received::CodeSwitch) => (None, state, job.reached.as_ref().ok_or("undef")?),
        Some(Received::Set(state)) => (None, state, code),
        _ => (Some(state.clone()), state, code),
    };
    let (state, code) = (state.clone(), code.clone());
    Ok((reply, Place::Loop { state, code }))
}

/// What takes a step back, and finds again what the step told: a message in its mailbox, and a reply among all.
enum Undo {
    /// The modules changed, and nothing else.
    Changed(Change),
    /// The process got the last message of its mailbox.
    Arrived { pid: u64 },
    /// The process took the message from this position.
    Taken { pid: u64, position: usize },
    /// The process rests after this job, and sent this one of all replies, if any: the first is 1.
    Rested {
        job: Rc<Job>,
        reply: Option<NonZeroUsize>,
    },
    /// Processes ended.
    Ended(Box<Ended>),
}

struct Ended {
    change: Change,
    processes: Vec<(u64, Process)>,
    replies: Range<usize>,
}

/// What an undo took back, the newest first.
#[derive(Default)]
struct Report {
    cut: usize,
    /// Where the replies stand among all.
    replies: Vec<usize>,
    arrivals: Vec<(Rc<str>, Message)>,
}

/// The node, with the steps that can be taken back.
#[derive(Default)]
struct Node {
    modules: Modules,
    processes: Processes,
    /// All that were ever sent: no undo takes them back.
    replies: Vec<Reply>,
    steps: Vec<(u64, Undo)>,
    last_serial: u64,
}

impl Node {
    fn boot(files: &Files, vsn: &str) -> Result<Self, String> {
        let mut node = Node::default();
        if vsn != "A" {
            return Ok(node);
        }
        for (name, path) in MODULES_OF_A {
            let code = files.get(path).ok_or_else(|| format!("{path}: missing"))?;
            node.modules.load(name, code.clone());
        }
        let state = Term::Int(4);
        node.processes.start("ctr", Place::Server { state });
        if let Some(code) = node.modules.current("lp").cloned() {
            let state = Term::Int(0);
            node.processes.start("lp", Place::Loop { state, code });
        }
        Ok(node)
    }

    fn mark(&self) -> u64 {
        self.steps.last().map_or(0, |(serial, _)| *serial)
    }

    fn note(&mut self, undo: Undo) {
        self.last_serial += 1;
        self.steps.push((self.last_serial, undo));
    }

    /// Notes a change of the modules, and kills the processes that use what it purged: whether there were any.
    fn note_change(&mut self, change: Change) -> bool {
        let purged = change.purged();
        let users = purged.map_or(Vec::new(), |old| self.processes.users(old));
        let has_killed = !users.is_empty();
        if has_killed {
            self.end(change, &users, "killed");
        } else {
            self.note(Undo::Changed(change));
        }
        has_killed
    }

    /// Ends processes for this reason.
    fn end(&mut self, change: Change, pids: &[u64], reason: Reason) {
        let first = self.replies.len();
        let mut processes = Vec::new();
        for pid in pids {
            if let Some(process) = self.processes.remove(*pid) {
                let calls = process.calls.iter().copied();
                let downs = calls.map(|number| Reply::Down { number, reason });
                self.replies.extend(downs);
                processes.push((*pid, process));
            }
        }
        self.note(Undo::Ended(Box::new(Ended {
            change,
            processes,
            replies: first..self.replies.len(),
        })));
    }

    fn soft_purge(&mut self, name: &str) -> bool {
        let module = self.modules.get(name);
        let old = module.and_then(|module| module.old.as_ref());
        if old.is_some_and(|old| !self.processes.users(old).is_empty()) {
            return false;
        }
        let change = self.modules.purge(name);
        self.note(Undo::Changed(change));
        true
    }

    fn arrive(&mut self, name: &str, message: Message) -> Result<(), Reason> {
        let pid = self.processes.named(name)?;
        let process = self.processes.get_mut(pid)?;
        if let Message::Call { number, .. } = &message {
            process.calls.insert(*number);
        }
        process.mailbox.push_back(message);
        self.note(Undo::Arrived { pid });
        Ok(())
    }

    fn take(&mut self, pid: u64) -> Result<Rc<Job>, Reason> {
        let process = self.processes.get_mut(pid)?;
        if process.running.is_some() {
            return Err("running");
        }
        let position = process.next().ok_or("idle")?;
        let message = process.mailbox.remove(position).ok_or("idle")?;
        let (entered, reached) = match &process.place {
            Place::Server { .. } => (self.modules.current("ctr").cloned(), None),
            Place::Loop { code, .. } => (Some(code.clone()), self.modules.current("lp").cloned()),
        };
        let job = Rc::new(Job {
            pid,
            turn: process.turn,
            place: process.place.clone(),
            message,
            entered,
            reached,
        });
        process.running = Some(job.clone());
        self.note(Undo::Taken { pid, position });
        Ok(job)
    }

    fn retake(&self, pid: u64) -> Result<Rc<Job>, Reason> {
        let process = self.processes.get(pid)?;
        process.running.clone().ok_or("not_running")
    }

    /// Commits a job, and answers the place of the first reply that it sent.
    fn commit(&mut self, done: &Done) -> Result<usize, Reason> {
        let first = self.replies.len();
        let pid = done.job.pid;
        let process = self.processes.get_mut(pid).map_err(|_| "stale")?;
        if process.running.as_ref() != Some(&done.job) {
            return Err("stale");
        }
        let (reply, place) = match &done.outcome {
            Outcome::Rest { reply, place } => (reply, place),
            Outcome::Exit(reason) => {
                self.end(Change::Nothing, &[pid], reason);
                return Ok(first);
            }
        };
        let job = process.running.take().ok_or("stale")?;
        process.place = place.clone();
        process.turn += 1;
        let mut sent = None;
        if let (Some(term), Message::Call { number, .. }) = (reply, &job.message) {
            if process.calls.remove(number) {
                let (number, term) = (*number, term.clone());
                self.replies.push(Reply::Reply { number, term });
                sent = NonZeroUsize::new(self.replies.len());
            }
        }
        self.note(Undo::Rested { job, reply: sent });
        Ok(first)
    }

    /// Takes back all steps after the mark, the newest first.
    fn undo(&mut self, mark: u64) -> Result<Report, Reason> {
        let kept = match mark {
            0 => 0,
            _ => {
                let at = self
                    .steps
                    .binary_search_by_key(&mark, |(serial, _)| *serial);
                at.map_err(|_| "dead_mark")? + 1
            }
        };
        let mut report = Report {
            cut: self.steps.len() - kept,
            ..Report::default()
        };
        while self.steps.len() > kept {
            if let Some((_, undo)) = self.steps.pop() {
                self.revert(undo, &mut report);
            }
        }
        Ok(report)
    }

    fn revert(&mut self, undo: Undo, report: &mut Report) {
        match undo {
            Undo::Changed(change) => self.modules.undo(change),
            Undo::Arrived { pid } => {
                let process = self.process_of_step(pid);
                let message = process
                    .mailbox
                    .pop_back()
                    .expect("the message that arrived");
                if let Message::Call { number, .. } = &message {
                    process.calls.remove(number);
                }
                report.arrivals.push((process.name.clone(), message));
            }
            Undo::Taken { pid, position } => {
                let process = self.process_of_step(pid);
                let job = process.running.take().expect("the job that was taken");
                process.mailbox.insert(position, job.message.clone());
            }
            Undo::Rested { job, reply } => {
                let reply = reply.map(|one| one.get() - 1);
                let number = reply.map(|at| self.replies[at].number());
                let process = self.process_of_step(job.pid);
                process.calls.extend(number);
                process.place = job.place.clone();
                process.turn = job.turn;
                process.running = Some(job);
                report.replies.extend(reply);
            }
            Undo::Ended(ended) => {
                for (pid, process) in ended.processes {
                    self.processes.insert(pid, process);
                }
                report.replies.extend(ended.replies.rev());
                self.modules.undo(ended.change);
            }
        }
    }

    /// The process that a step changed, which lives where that step is the newest.
    fn process_of_step(&mut self, pid: u64) -> &mut Process {
        self.processes
            .get_mut(pid)
            .expect("the process of the step")
    }
}

/// The shell: what it reads from, what it works on, and where it writes.
struct Shell<W> {
    files: Files,
    node: Node,
    /// The jobs that were handed out, with what they came to.
    results: Vec<Done>,
    /// How many calls were made.
    calls: u64,
    out: W,
}

impl<W: Write> Shell<W> {
    fn serve(&mut self, input: &mut impl BufRead) -> io::Result<()> {
        let mut line = Vec::new();
        while let Some(is_whole) = read_line(input, &mut line)? {
            if !is_whole {
                writeln!(self.out, "{{error,line_too_long}}")?;
            } else if !line.iter().all(|b| *b == b' ') && line[0] != b'%' {
                match str::from_utf8(&line) {
                    Ok(text) => self.answer(text)?,
                    Err(_) => self.refuse("bad_command")?,
                }
                self.out.write_all(b"\n")?;
            }
        }
        self.out.flush()
    }

    fn answer(&mut self, line: &str) -> io::Result<()> {
        let (command, rest) = first_word(line);
        let mut words = rest.split(' ').filter(|word| !word.is_empty());
        match (command, [words.next(), words.next(), words.next()]) {
            ("call" | "cast" | "send", [Some(name), Some(_), _]) if is_atom(name) => {
                self.arrive(command, name, first_word(rest).1)
            }
            ("take", [Some(process), None, _]) => {
                let job = self.pid(process).and_then(|pid| self.node.take(pid));
                self.hand_out(job)
            }
            ("retake", [Some(process), None, _]) => {
                let job = self.pid(process).and_then(|pid| self.node.retake(pid));
                self.hand_out(job)
            }
            ("commit", [Some(job), None, _]) => match number(job) {
                Some(job) => self.commit(job),
                None => self.refuse("bad_command"),
            },
            ("replies", [None, ..]) => {
                self.out.write_all(b"[")?;
                write_items(&mut self.out, &self.node.replies, write_reply)?;
                self.out.write_all(b"]")
            }
            ("proc", [Some(process), None, _]) => self.process(process),
            ("load", [Some(name), Some(path), None]) if is_atom(name) => self.load(name, path),
            ("delete", [Some(name), None, _]) if is_atom(name) => {
                let change = self.node.modules.delete(name);
                let is_deleted = change.is_some();
                if let Some(change) = change {
                    self.node.note(Undo::Changed(change));
                }
                write!(self.out, "{is_deleted}")
            }
            ("purge", [Some(name), None, _]) if is_atom(name) => {
                let change = self.node.modules.purge(name);
                let has_killed = self.node.note_change(change);
                write!(self.out, "{has_killed}")
            }
            ("soft_purge", [Some(name), None, _]) if is_atom(name) => {
                let is_purged = self.node.soft_purge(name);
                write!(self.out, "{is_purged}")
            }
            ("modules", [None, ..]) => self.modules(),
            ("mark", [None, ..]) => write!(self.out, "{{mark,{}}}", self.node.mark()),
            ("undo", [Some(mark), None, _]) => match number(mark) {
                Some(mark) => self.undo(mark),
                None => self.refuse("bad_command"),
            },
            _ => self.refuse("bad_command"),
        }
    }

    fn refuse(&mut self, reason: Reason) -> io::Result<()> {
        write!(self.out, "{{error,{reason}}}")
    }

    fn arrive(&mut self, command: &str, name: &str, text: &str) -> io::Result<()> {
        let Some(term) = read_term(text) else {
            return self.refuse("bad_command");
        };
        let message = match command {
            "call" => {
                self.calls += 1;
                let number = self.calls;
                Message::Call { number, term }
            }
            "cast" => Message::Cast(term),
            _ => Message::of_term(term),
        };
        match self.node.arrive(name, message) {
            Ok(()) if command == "call" => write!(self.out, "{{call,{}}}", self.calls),
            Ok(()) => self.out.write_all(b"ok"),
            Err(reason) => self.refuse(reason),
        }
    }

    /// The process that a word means: by its pid's number, or by its name.
    fn pid(&self, word: &str) -> Result<u64, Reason> {
        if word.bytes().all(|b| b.is_ascii_digit()) {
            number(word).ok_or("bad_command")
        } else if is_atom(word) {
            self.node.processes.named(word)
        } else {
            Err("bad_command")
        }
    }

    /// Runs a job, keeps what it came to, and answers its number.
    fn hand_out(&mut self, job: Result<Rc<Job>, Reason>) -> io::Result<()> {
        match job {
            Ok(job) => {
                let (pid, outcome) = (job.pid, run_job(&job));
                self.results.push(Done { job, outcome });
                write!(self.out, "{{job,{},<0.{pid}.0>}}", self.results.len())
            }
            Err(reason) => self.refuse(reason),
        }
    }

    fn commit(&mut self, job: u64) -> io::Result<()> {
        let place = usize::try_from(job).ok().and_then(|job| job.checked_sub(1));
        let Some(done) = place.and_then(|place| self.results.get(place)) else {
            return self.refuse("no_job");
        };
        match self.node.commit(done) {
            Ok(first) => {
                self.out.write_all(b"{committed,[")?;
                write_items(&mut self.out, &self.node.replies[first..], write_reply)?;
                self.out.write_all(b"]}")
            }
            Err(reason) => self.refuse(reason),
        }
    }

    fn undo(&mut self, mark: u64) -> io::Result<()> {
        match self.node.undo(mark) {
            Ok(report) => {
                write!(self.out, "{{undone,{},[", report.cut)?;
                let replies = report
                    .replies
                    .iter()
                    .rev()
                    .map(|at| &self.node.replies[*at]);
                write_items(&mut self.out, replies, write_reply)?;
                self.out.write_all(b"],[")?;
                write_items(&mut self.out, report.arrivals.iter().rev(), write_arrival)?;
                self.out.write_all(b"]}")
            }
            Err(reason) => self.refuse(reason),
        }
    }

    fn process(&mut self, word: &str) -> io::Result<()> {
        let processes = &self.node.processes;
        let found = self
            .pid(word)
            .and_then(|pid| Ok((pid, processes.get(pid)?)));
        let (pid, process) = match found {
            Ok(found) => found,
            Err(reason) => return self.refuse(reason),
        };
        let activity = match process.running {
            Some(_) => "running",
            None => "idle",
        };
        write!(self.out, "{{proc,<0.{pid}.0>,")?;
        write_place(&mut self.out, &process.place)?;
        write!(self.out, ",{activity},{},", process.turn)?;
        let mailbox = process.mailbox.iter();
        write_list(&mut self.out, mailbox, Message::character, write_message)?;
        self.out.write_all(b"}")
    }

    fn load(&mut self, name: &str, path: &str) -> io::Result<()> {
        let Some(code) = self.files.get(path) else {
            self.out.write_all(b"{error,{file,")?;
            write_string(&mut self.out, path)?;
            return self.out.write_all(b",missing}}");
        };
        let change = self.node.modules.load(name, code.clone());
        self.node.note_change(change);
        self.out.write_all(b"{module,")?;
        write_atom(&mut self.out, name)?;
        self.out.write_all(b"}")
    }

    fn modules(&mut self) -> io::Result<()> {
        self.out.write_all(b"[")?;
        for (place, module) in self.node.modules.entries.iter().enumerate() {
            self.out.write_all(if place == 0 { b"{" } else { b",{" })?;
            write_atom(&mut self.out, &module.name)?;
            write_serial(&mut self.out, &module.current)?;
            write_serial(&mut self.out, &module.old)?;
            self.out.write_all(b"}")?;
        }
        self.out.write_all(b"]")
    }
}

/// Reads the next line into `line`, without its newline: whether it is whole, and not too long, or `None`
/// at the end of the input. Of a line that is too long no more than the start is kept.
fn read_line(input: &mut impl BufRead, line: &mut Vec<u8>) -> io::Result<Option<bool>> {
    line.clear();
    let read = input
        .by_ref()
        .take(LONGEST_LINE as u64 + 1)
        .read_until(b'\n', line)?;
    if read == 0 {
        return Ok(None);
    }
    if line.last() == Some(&b'\n') {
        line.pop();
    } else if line.len() > LONGEST_LINE {
        input.skip_until(b'\n')?;
        return Ok(Some(false));
    }
    Ok(Some(true))
}

/// The first word of a text, and what stands behind it.
fn first_word(text: &str) -> (&str, &str) {
    let text = text.trim_start_matches(' ');
    text.split_once(' ').unwrap_or((text, ""))
}

fn is_atom(name: &str) -> bool {
    name.chars().count() <= LONGEST_ATOM
}

fn number(word: &str) -> Option<u64> {
    if word.bytes().all(|b| b.is_ascii_digit()) {
        word.parse().ok()
    } else {
        None
    }
}

/// The term that a text is, without a dot: `None` for what this reader doesn't know, too.
fn read_term(text: &str) -> Option<Term> {
    let mut reader = Reader { rest: text };
    let term = reader.term(0)?;
    reader.skip_blanks();
    reader.rest.is_empty().then_some(term)
}

/// What is left to read of a text of terms.
struct Reader<'a> {
    rest: &'a str,
}

impl<'a> Reader<'a> {
    fn skip_blanks(&mut self) {
        self.rest = self.rest.trim_start_matches(|c| c <= ' ');
    }

    /// Takes the next character where it is this one.
    fn takes(&mut self, c: char) -> bool {
        let rest = self.rest.strip_prefix(c);
        self.rest = rest.unwrap_or(self.rest);
        rest.is_some()
    }

    fn take(&mut self, count: usize) -> &'a str {
        let (taken, rest) = self.rest.split_at(count);
        self.rest = rest;
        taken
    }

    fn term(&mut self, depth: usize) -> Option<Term> {
        self.skip_blanks();
        match self.rest.bytes().next()? {
            b'{' => Some(Term::Tuple(self.items('}', depth)?)),
            b'[' => Some(Term::List(self.items(']', depth)?)),
            b'\'' => self.quoted(),
            b'a'..=b'z' => self.word(),
            _ => self.integer(),
        }
    }

    /// The items in brackets, the first of which is next.
    fn items(&mut self, close: char, depth: usize) -> Option<Rc<[Term]>> {
        if depth == DEEPEST_TERM {
            return None;
        }
        self.take(1);
        self.skip_blanks();
        let mut items = Vec::new();
        if self.takes(close) {
            return Some(items.into());
        }
        loop {
            items.push(self.term(depth + 1)?);
            self.skip_blanks();
            if self.takes(close) {
                return Some(items.into());
            }
            if !self.takes(',') {
                return None;
            }
        }
    }

    fn word(&mut self) -> Option<Term> {
        let is_part = |b: u8| b.is_ascii_alphanumeric() || b == b'_' || b == b'@';
        let length = self.rest.bytes().take_while(|b| is_part(*b)).count();
        let name = self.take(length);
        let is_read =
            matches!(name, "else" | "maybe") || QUOTED_WORDS.binary_search(&name).is_err();
        (is_read && is_atom(name)).then(|| Term::Atom(name.into()))
    }

    /// An atom in quotes, without escapes.
    fn quoted(&mut self) -> Option<Term> {
        self.take(1);
        let name = self.take(self.rest.find('\'')?);
        self.take(1);
        (is_atom(name) && !name.contains('\\')).then(|| Term::Atom(name.into()))
    }

    fn integer(&mut self) -> Option<Term> {
        let sign = usize::from(self.rest.starts_with(['-', '+']));
        let digits = self.rest[sign..].bytes().take_while(u8::is_ascii_digit);
        let text = self.take(sign + digits.count());
        text.parse().ok().map(Term::Int)
    }
}

fn write_term<W: Write>(out: &mut W, term: &Term) -> io::Result<()> {
    match term {
        Term::Int(n) => write!(out, "{n}"),
        Term::Atom(name) => write_atom(out, name),
        Term::Tuple(elements) => {
            out.write_all(b"{")?;
            write_items(out, elements.iter(), write_term)?;
            out.write_all(b"}")
        }
        Term::List(elements) => write_list(out, elements.iter(), Term::character, write_term),
    }
}

/// Writes items with commas between them.
fn write_items<W: Write, T>(
    out: &mut W,
    items: impl IntoIterator<Item = T>,
    write: impl Fn(&mut W, T) -> io::Result<()>,
) -> io::Result<()> {
    for (place, item) in items.into_iter().enumerate() {
        if place > 0 {
            out.write_all(b",")?;
        }
        write(out, item)?;
    }
    Ok(())
}

/// Writes a list, in quotes where it isn't empty and all of its elements are printable characters.
fn write_list<'a, W: Write, T: 'a>(
    out: &mut W,
    items: impl Iterator<Item = &'a T> + Clone,
    character: impl Fn(&T) -> Option<char>,
    write: impl Fn(&mut W, &'a T) -> io::Result<()>,
) -> io::Result<()> {
    match items.clone().map(character).collect::<Option<String>>() {
        Some(text) if !text.is_empty() => write_string(out, &text),
        _ => {
            out.write_all(b"[")?;
            write_items(out, items, write)?;
            out.write_all(b"]")
        }
    }
}

fn write_message<W: Write>(out: &mut W, message: &Message) -> io::Result<()> {
    let term = match message {
        Message::Call { number, term } => {
            write!(out, "{{'$gen_call',{{<0.0.0>,{number}}},")?;
            term
        }
        Message::Cast(term) => {
            out.write_all(b"{'$gen_cast',")?;
            term
        }
        Message::Info(term) => return write_term(out, term),
    };
    write_term(out, term)?;
    out.write_all(b"}")
}

fn write_arrival<W: Write>(out: &mut W, (name, message): &(Rc<str>, Message)) -> io::Result<()> {
    out.write_all(b"{")?;
    write_atom(out, name)?;
    out.write_all(b",")?;
    write_message(out, message)?;
    out.write_all(b"}")
}

fn write_reply<W: Write>(out: &mut W, reply: &Reply) -> io::Result<()> {
    match reply {
        Reply::Reply { number, term } => {
            write!(out, "{{reply,0,{number},")?;
            write_term(out, term)?;
            out.write_all(b"}")
        }
        Reply::Down { number, reason } => write!(out, "{{down,0,{number},{reason}}}"),
    }
}

fn write_place<W: Write>(out: &mut W, place: &Place) -> io::Result<()> {
    match place {
        Place::Server { state } => {
            out.write_all(b"{server,ctr,")?;
            write_term(out, state)?;
            out.write_all(b"}")
        }
        Place::Loop { state, code } => {
            out.write_all(b"{loop,lp,loop,")?;
            write_list(out, [state].into_iter(), Term::character, write_term)?;
            write!(out, ",{}}}", code.serial)
        }
    }
}

fn write_serial(out: &mut impl Write, instance: &Option<Instance>) -> io::Result<()> {
    match instance {
        Some(instance) => write!(out, ",{}", instance.serial),
        None => out.write_all(b",none"),
    }
}

fn write_atom(out: &mut impl Write, name: &str) -> io::Result<()> {
    let is_plain = name.starts_with(|c: char| c.is_ascii_lowercase())
        && name
            .bytes()
            .all(|b| b.is_ascii_alphanumeric() || b == b'_' || b == b'@')
        && QUOTED_WORDS.binary_search(&name).is_err();
    if is_plain {
        return out.write_all(name.as_bytes());
    }
    out.write_all(b"'")?;
    for c in name.chars() {
        match c {
            '\'' | '\\' => write!(out, "\\{c}")?,
            '\0'..='\x1f' | '\x7f' => write!(out, "\\x{{{:x}}}", u32::from(c))?,
            _ => write!(out, "{c}")?,
        }
    }
    out.write_all(b"'")
}

/// Writes text as the list of its characters prints: in quotes where all of them are printable.
fn write_string(out: &mut impl Write, text: &str) -> io::Result<()> {
    if text.bytes().all(|b| (32..=126).contains(&b)) {
        out.write_all(b"\"")?;
        for c in text.chars() {
            match c {
                '"' | '\\' => write!(out, "\\{c}")?,
                _ => write!(out, "{c}")?,
            }
        }
        return out.write_all(b"\"");
    }
    out.write_all(b"[")?;
    for (place, c) in text.chars().enumerate() {
        let comma = if place == 0 { "" } else { "," };
        write!(out, "{comma}{}", u32::from(c))?;
    }
    out.write_all(b"]")
}

/// Adds the files below the folder, whose own path below ROOT ends in a slash, or is empty for ROOT.
fn read_files(folder: &Path, below: &str, files: &mut Files) -> Result<(), String> {
    let fault = |error: io::Error| format!("{}: {error}", folder.display());
    for entry in fs::read_dir(folder).map_err(fault)? {
        let entry = entry.map_err(fault)?;
        let path = entry.path();
        let Ok(name) = entry.file_name().into_string() else {
            return Err(format!("{}: a name is not UTF-8", path.display()));
        };
        let kind = fs::metadata(&path).map_err(|error| format!("{}: {error}", path.display()))?;
        if kind.is_dir() {
            read_files(&path, &format!("{below}{name}/"), files)?;
        } else if kind.is_file() {
            let bytes = fs::read(&path).map_err(|error| format!("{}: {error}", path.display()))?;
            files.insert(format!("{below}{name}"), Rc::new(Code { bytes }));
        }
    }
    Ok(())
}

fn run(root: &Path, vsn: &str) -> Result<(), String> {
    let mut files = Files::new();
    read_files(root, "", &mut files)?;
    let node = Node::boot(&files, vsn)?;
    let out = BufWriter::with_capacity(1 << 16, io::stdout().lock());
    let mut shell = Shell {
        files,
        node,
        results: Vec::new(),
        calls: 0,
        out,
    };
    let mut input = BufReader::with_capacity(1 << 16, io::stdin().lock());
    shell.serve(&mut input).map_err(|error| error.to_string())
}

fn main() -> ExitCode {
    let words: Vec<_> = env::args_os().collect();
    let [_, root, vsn] = words.as_slice() else {
        eprintln!("usage: plain ROOT VSN");
        return ExitCode::from(2);
    };
    match run(Path::new(root), &vsn.to_string_lossy()) {
        Ok(()) => ExitCode::SUCCESS,
        Err(fault) => {
            eprintln!("plain: {fault}");
            ExitCode::FAILURE
        }
    }
}
