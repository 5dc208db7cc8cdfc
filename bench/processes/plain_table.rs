// A table of processes as it is written in plain Rust, for figures to compare with: the processes in a `BTreeMap` by pid, the pids of
// those that could take a message in a `BTreeSet`, names and open calls in hash maps, mailboxes in `VecDeque`s, and a step's undo in an
// enum. Terms, places and instances share.
//
// `plain_table MEASURE PROCESSES SIZE TURNS` does as `main.rattle` does, by the same steps with the same refusals. What the
// callbacks do is written by hand: a counter that counts one on and replies.
// Build it by `rustc -O --edition 2021 bench/processes/plain_table.rs`.

use std::collections::{BTreeMap, BTreeSet, HashMap, VecDeque};
use std::env;
use std::mem;
use std::sync::Arc;
use std::time::{Duration, Instant};

type Atom = Arc<str>;

#[derive(Clone, PartialEq, Eq)]
enum Term {
    Int(i64),
    Atom(Atom),
    Pid(u64),
    Tuple(Arc<Vec<Term>>),
}

impl Term {
    /// The elements of a tuple.
    fn items(&self) -> &[Term] {
        match self {
            Term::Tuple(items) => items,
            _ => &[],
        }
    }
}

/// The code of a module: here only which messages a process takes that rests in it.
struct Module {
    takes: fn(&Term) -> bool,
}

/// One load of a module.
#[derive(Clone)]
struct Instance {
    name: Atom,
    serial: u64,
    module: Arc<Module>,
}

impl PartialEq for Instance {
    fn eq(&self, other: &Instance) -> bool {
        self.serial == other.serial && self.name == other.name && Arc::ptr_eq(&self.module, &other.module)
    }
}

/// Where a process rests.
#[derive(Clone, PartialEq)]
enum Place {
    Server { module: Atom, state: Term },
    Loop { module: Atom, serial: u64, function: Atom, args: Arc<Vec<Term>> },
}

struct Running {
    entry_serial: u64,
    message: Term,
    code: Arc<Vec<Instance>>,
}

enum Activity {
    Idle,
    /// No step here suspends a process, but a take asks.
    #[allow(dead_code)]
    Suspended,
    Runs(Running),
}

/// A call of a client: the client, and the number.
type Call = (u64, u64);

struct Process {
    name: Option<Atom>,
    place: Place,
    /// The instance of the place, where this is a loop function.
    rests_in: Option<Instance>,
    activity: Activity,
    turn: u64,
    mailbox: VecDeque<Term>,
    /// The position of the message that it takes next.
    next: Option<usize>,
    calls: BTreeSet<Call>,
}

/// A message that a process has taken.
struct Job {
    pid: u64,
    turn: u64,
    place: Place,
    entry_serial: u64,
    message: Term,
    code: Arc<Vec<Instance>>,
}

/// What a job has replied, in order, and where its process rests then.
struct Done {
    job: Job,
    answers: Vec<Answer>,
    rests: Place,
}

/// A reply, and the number of the call that it is for.
struct Answer {
    number: u64,
    term: Term,
}

/// What arrives from outside.
enum Body { Call { number: u64, term: Term }, Cast(Term) }

/// What a client is told of its call: a reply, or why the process is down.
#[allow(dead_code)]
enum Told {
    Reply(Term),
    Down(Term),
}

struct Reply {
    call: Call,
    told: Told,
}

#[derive(Debug)]
enum Refusal { NoProc, Suspended, Running, Idle, Stale, NameTaken, DuplicateCall, CounterEnd }

/// What takes a step back.
enum Undo {
    Arrived { pid: u64, call: Option<Call> },
    Taken { pid: u64, position: usize },
    Rested { pid: u64, place: Place, rests_in: Option<Instance>, running: Running, closed: Vec<(u64, Call)> },
    Ended { pid: u64, process: Process },
    Killed(Vec<(u64, Process)>),
}

impl Process {
    /// Whether it takes a message where it rests.
    fn takes(&self, message: &Term) -> bool {
        self.rests_in.as_ref().is_none_or(|instance| (instance.module.takes)(message))
    }

    fn deliver(&mut self, message: Term) {
        let waits = !matches!(self.activity, Activity::Runs(_)) && self.next.is_none();
        if waits && self.takes(&message) {
            self.next = Some(self.mailbox.len());
        }
        self.mailbox.push_back(message);
    }

    /// Whether it could take a message now.
    fn can_take(&self) -> bool {
        matches!(self.activity, Activity::Idle) && self.next.is_some()
    }

    /// Whether it runs this job: equal by value, code included.
    fn runs(&self, pid: u64, job: &Job) -> bool {
        let Activity::Runs(running) = &self.activity else { return false };
        pid == job.pid
            && self.turn == job.turn
            && running.entry_serial == job.entry_serial
            && running.message == job.message
            && self.place == job.place
            && *running.code == *job.code
    }

    fn uses(&self, serial: u64) -> bool {
        match &self.activity {
            Activity::Runs(running) => running.code.iter().any(|it| it.serial == serial),
            Activity::Idle | Activity::Suspended => self.rests_in.as_ref().is_some_and(|it| it.serial == serial),
        }
    }
}

#[derive(Default)]
struct Processes {
    table: BTreeMap<u64, Process>,
    /// The pids of those that could take a message now.
    ready: BTreeSet<u64>,
    next_pid: u64,
    names: HashMap<Atom, u64>,
    /// The open calls by their numbers: the process that is to answer, and the client.
    open: HashMap<u64, (u64, u64)>,
}

impl Processes {
    fn start(&mut self, name: Option<Atom>, place: Place, code: &[Instance]) -> Result<u64, Refusal> {
        if name.as_ref().is_some_and(|it| self.names.contains_key(it)) {
            return Err(Refusal::NameTaken);
        }
        let pid = self.next_pid.checked_add(1).ok_or(Refusal::CounterEnd)?;
        let rests_in = rests_in(&place, code);
        if let Some(name) = &name {
            self.names.insert(name.clone(), pid);
        }
        let (activity, mailbox, calls) = (Activity::Idle, VecDeque::new(), BTreeSet::new());
        self.table.insert(pid, Process { name, place, rests_in, activity, turn: 0, mailbox, next: None, calls });
        self.next_pid = pid;
        Ok(pid)
    }

    /// Puts a pid among those that could take a message now, or takes it out, by what its process is.
    fn mark(&mut self, pid: u64) {
        match self.table.get(&pid).is_some_and(Process::can_take) {
            true => self.ready.insert(pid),
            false => self.ready.remove(&pid),
        };
    }

    /// The least pid above another of a process that could take a message now.
    fn runnable(&self, after: u64) -> Option<u64> {
        self.ready.range(after + 1..).next().copied()
    }

    fn arrive(&mut self, client: u64, name: &Atom, body: &Body) -> Result<Undo, Refusal> {
        let pid = *self.names.get(name).ok_or(Refusal::NoProc)?;
        let process = self.table.get_mut(&pid).ok_or(Refusal::NoProc)?;
        let (message, call) = match body {
            Body::Call { number, term } => {
                if self.open.contains_key(number) {
                    return Err(Refusal::DuplicateCall);
                }
                let from = tuple([Term::Pid(0), Term::Int(i64::try_from(*number).map_err(|_| Refusal::CounterEnd)?)]);
                self.open.insert(*number, (pid, client));
                process.calls.insert((client, *number));
                (tuple([atom("$gen_call"), from, term.clone()]), Some((client, *number)))
            }
            Body::Cast(term) => (tuple([atom("$gen_cast"), term.clone()]), None),
        };
        process.deliver(message);
        self.mark(pid);
        Ok(Undo::Arrived { pid, call })
    }

    fn take(&mut self, modules: &HashMap<Atom, Instance>, pid: u64) -> Result<(Job, Undo), Refusal> {
        let process = self.table.get_mut(&pid).ok_or(Refusal::NoProc)?;
        match process.activity {
            Activity::Suspended => return Err(Refusal::Suspended),
            Activity::Runs(_) => return Err(Refusal::Running),
            Activity::Idle => (),
        }
        let position = process.next.ok_or(Refusal::Idle)?;
        let message = process.mailbox.remove(position).ok_or(Refusal::Idle)?;
        let entered = match &process.place {
            Place::Server { module, .. } => modules.get(module),
            Place::Loop { .. } => process.rests_in.as_ref(),
        };
        let entry_serial = entered.map_or(0, |it| it.serial);
        let code = Arc::new(entered.cloned().into_iter().collect::<Vec<_>>());
        let (turn, place) = (process.turn, process.place.clone());
        let job = Job { pid, turn, place, entry_serial, message: message.clone(), code: code.clone() };
        process.activity = Activity::Runs(Running { entry_serial, message, code });
        process.next = None;
        self.ready.remove(&pid);
        Ok((job, Undo::Taken { pid, position }))
    }

    fn commit(&mut self, done: &Done) -> Result<(Vec<Reply>, Undo), Refusal> {
        let Done { job, answers, rests } = done;
        let process = self.table.get_mut(&job.pid).filter(|it| it.runs(job.pid, job)).ok_or(Refusal::Stale)?;
        process.turn = process.turn.checked_add(1).ok_or(Refusal::CounterEnd)?;
        let place = mem::replace(&mut process.place, rests.clone());
        let rests_in = mem::replace(&mut process.rests_in, rests_in(rests, &job.code));
        let Activity::Runs(running) = mem::replace(&mut process.activity, Activity::Idle) else { return Err(Refusal::Stale) };
        process.next = process.mailbox.iter().position(|message| process.takes(message));
        let (mut replies, mut closed) = (Vec::new(), Vec::new());
        for Answer { number, term } in answers {
            if let Some((pid, client)) = self.open.remove(number) {
                let call = (client, *number);
                self.table.get_mut(&pid).map(|it| it.calls.remove(&call));
                closed.push((pid, call));
                replies.push(Reply { call, told: Told::Reply(term.clone()) });
            }
        }
        self.mark(job.pid);
        Ok((replies, Undo::Rested { pid: job.pid, place, rests_in, running, closed }))
    }

    /// Takes a process out, with its name and its open calls.
    fn remove(&mut self, pid: u64) -> Option<Process> {
        let process = self.table.remove(&pid)?;
        self.ready.remove(&pid);
        if let Some(name) = &process.name {
            self.names.remove(name);
        }
        for (_, number) in &process.calls {
            self.open.remove(number);
        }
        Some(process)
    }

    /// Puts a process back, with its name and its open calls.
    fn restore(&mut self, pid: u64, process: Process) {
        if let Some(name) = &process.name {
            self.names.insert(name.clone(), pid);
        }
        for (client, number) in &process.calls {
            self.open.insert(*number, (pid, *client));
        }
        self.table.insert(pid, process);
        self.mark(pid);
    }

    fn end(&mut self, pid: u64) -> Result<Undo, Refusal> {
        let process = self.remove(pid).ok_or(Refusal::NoProc)?;
        Ok(Undo::Ended { pid, process })
    }

    fn kill_users(&mut self, serial: u64) -> (Vec<Reply>, Undo) {
        let reason = atom("killed");
        let users: Vec<u64> = self.table.iter().filter(|(_, it)| it.uses(serial)).map(|(pid, _)| *pid).collect();
        let calls = users.iter().flat_map(|pid| &self.table[pid].calls);
        let replies = calls.map(|call| Reply { call: *call, told: Told::Down(reason.clone()) }).collect();
        let killed = users.iter().filter_map(|pid| Some((*pid, self.remove(*pid)?))).collect();
        (replies, Undo::Killed(killed))
    }

    /// Takes the newest step back.
    fn revert(&mut self, undo: Undo) {
        match undo {
            Undo::Arrived { pid, call } => {
                let process = self.table.get_mut(&pid).expect("a process");
                process.mailbox.pop_back();
                process.next = process.next.filter(|next| *next < process.mailbox.len());
                if let Some(call) = call {
                    process.calls.remove(&call);
                    self.open.remove(&call.1);
                }
                self.mark(pid);
            }
            Undo::Taken { pid, position } => {
                let process = self.table.get_mut(&pid).expect("a process");
                if let Activity::Runs(running) = mem::replace(&mut process.activity, Activity::Idle) {
                    process.mailbox.insert(position, running.message);
                    process.next = Some(position);
                }
                self.mark(pid);
            }
            Undo::Rested { pid, place, rests_in, running, closed } => {
                for (owner, call) in closed.iter().rev() {
                    self.open.insert(call.1, (*owner, call.0));
                    self.table.get_mut(owner).map(|it| it.calls.insert(*call));
                }
                let process = self.table.get_mut(&pid).expect("a process");
                (process.place, process.rests_in) = (place, rests_in);
                process.activity = Activity::Runs(running);
                (process.turn, process.next) = (process.turn - 1, None);
                self.ready.remove(&pid);
            }
            Undo::Ended { pid, process } => self.restore(pid, process),
            Undo::Killed(killed) => killed.into_iter().for_each(|(pid, process)| self.restore(pid, process)),
        }
    }
}

/// The instance of a loop function's place, among code.
fn rests_in(place: &Place, code: &[Instance]) -> Option<Instance> {
    match place {
        Place::Server { .. } => None,
        Place::Loop { serial, .. } => code.iter().find(|it| it.serial == *serial).cloned(),
    }
}

fn atom(word: &str) -> Term {
    Term::Atom(word.into())
}

fn tuple<const N: usize>(items: [Term; N]) -> Term {
    Term::Tuple(Arc::new(items.into()))
}

// The callbacks, by hand.

/// Whether a message is `{'$gen_call',_,bump}`.
fn is_bump(message: &Term) -> bool {
    matches!(message.items(), [Term::Atom(word), _, Term::Atom(asked)] if &**word == "$gen_call" && &**asked == "bump")
}

/// What a job of the counter gives.
fn done(job: Job) -> Option<Done> {
    let Term::Int(number) = job.message.items().get(1)?.items().get(1)? else { return None };
    let number = u64::try_from(*number).ok()?;
    let next = |term: &Term| if let Term::Int(n) = term { Some(Term::Int(n + 1)) } else { None };
    let (term, rests) = match &job.place {
        Place::Server { module, state } => {
            let state = next(state)?;
            (state.clone(), Place::Server { module: module.clone(), state })
        }
        Place::Loop { module, serial, function, args } => {
            let term = next(args.first()?)?;
            let args = Arc::new(vec![term.clone()]);
            (term, Place::Loop { module: module.clone(), serial: *serial, function: function.clone(), args })
        }
    };
    Some(Done { job, answers: vec![Answer { number, term }], rests })
}

// The program.

enum Step { Arrive(Atom, Body), Take(u64), Commit(Done), End(u64), Kill(u64), Next, Serve(Atom, Body) }

struct Node {
    modules: HashMap<Atom, Instance>,
    processes: Processes,
}

impl Node {
    fn load(&mut self, serial: u64, name: &str, takes: fn(&Term) -> bool) -> Instance {
        let instance = Instance { name: name.into(), serial, module: Arc::new(Module { takes }) };
        self.modules.insert(name.into(), instance.clone());
        instance
    }

    fn begin(&mut self, name: Atom, instance: &Instance, is_loop: bool) {
        let (module, serial, state) = (instance.name.clone(), instance.serial, Term::Int(4));
        let place = match is_loop {
            true => Place::Loop { module, serial, function: "loop".into(), args: Arc::new(vec![state]) },
            false => Place::Server { module, state },
        };
        self.processes.start(Some(name), place, std::slice::from_ref(instance)).expect("a start");
    }

    fn ask(&mut self, name: &Atom, body: &Body) {
        self.processes.arrive(1, name, body).expect("an arrival");
    }

    /// Fills the table for a measure. The step that it measures is handed out.
    fn fill(&mut self, measure: &str, count: u64, size: u64) -> Step {
        let (server, looping) = (self.load(1, "ctr", |_| true), self.load(2, "lp", is_bump));
        if measure == "given" {
            for pid in 1..=count {
                self.begin(name_of(pid), &server, false);
                self.processes.end(pid).expect("an end");
            }
            return Step::Next;
        }
        let pid = count / 2;
        let every = match measure {
            "kill" => count / size,
            "late_take" | "late_commit" => pid,
            _ => 0,
        };
        for pid in 1..=count {
            let is_loop = pid.checked_rem(every) == Some(0);
            self.begin(name_of(pid), if is_loop { &looping } else { &server }, is_loop);
        }
        let name = name_of(pid);
        match measure {
            "kill" => (1..=size).map(|it| it * every).for_each(|pid| self.ask(&name_of(pid), &bump(pid))),
            "late_take" | "late_commit" => {
                (0..size).for_each(|_| self.ask(&name, &Body::Cast(Term::Int(0))));
                self.ask(&name, &bump(1));
            }
            _ => (1..=size + u64::from(measure == "commit")).for_each(|number| self.ask(&name, &bump(number))),
        }
        match measure {
            "arrive" => Step::Arrive(name, bump(size + 1)),
            "take" | "late_take" => Step::Take(pid),
            "commit" | "late_commit" => {
                let (job, _) = self.processes.take(&self.modules, pid).expect("a job");
                Step::Commit(done(job).expect("what it has done"))
            }
            "end" => Step::End(pid),
            "kill" => Step::Kill(looping.serial),
            "next" => Step::Next,
            "serve" => Step::Serve(name, bump(size + 1)),
            _ => panic!("no measure"),
        }
    }

    /// The pid of the process that could take a message next, or 0.
    fn next(&self) -> u64 {
        self.processes.runnable(0).unwrap_or(0)
    }

    /// A message comes, and the process that could take one next takes one; and both are taken back. Its pid is handed out.
    fn serve(&mut self, name: &Atom, body: &Body) -> Result<u64, Refusal> {
        let came = self.processes.arrive(1, name, body)?;
        let pid = self.next();
        let (_, taken) = self.processes.take(&self.modules, pid)?;
        self.processes.revert(taken);
        self.processes.revert(came);
        Ok(pid)
    }

    /// Makes a step and takes it back. How long the step took, if that is told, and what was seen, are handed out.
    fn turn(&mut self, step: &Step) -> Result<(Duration, u64), Refusal> {
        let start = match step {
            Step::End(_) | Step::Kill(_) => Some(Instant::now()),
            _ => None,
        };
        let (undo, mut seen) = match step {
            Step::Next => return Ok((Duration::ZERO, self.next())),
            Step::Serve(name, body) => return Ok((Duration::ZERO, self.serve(name, body)?)),
            Step::Arrive(name, body) => (self.processes.arrive(1, name, body)?, 0),
            Step::Take(pid) => {
                let (job, undo) = self.processes.take(&self.modules, *pid)?;
                (undo, job.code.len() as u64)
            }
            Step::Commit(done) => {
                let (replies, undo) = self.processes.commit(done)?;
                (undo, replies.first().map_or(0, seen_of))
            }
            Step::End(pid) => (self.processes.end(*pid)?, 0),
            Step::Kill(serial) => {
                let (replies, undo) = self.processes.kill_users(*serial);
                (undo, replies.len() as u64)
            }
        };
        let time = start.map_or(Duration::ZERO, |start| start.elapsed());
        match &undo {
            Undo::Arrived { pid, .. } => seen = *pid,
            Undo::Ended { pid, .. } => seen = u64::from(!self.processes.table.contains_key(pid)),
            _ => (),
        }
        self.processes.revert(undo);
        Ok((time, seen))
    }
}

fn name_of(pid: u64) -> Atom {
    format!("p{pid}").into()
}

fn bump(number: u64) -> Body {
    Body::Call { number, term: atom("bump") }
}

/// What is seen of a reply: the integer.
fn seen_of(reply: &Reply) -> u64 {
    match reply {
        Reply { call: (1, _), told: Told::Reply(Term::Int(n)) } => n.unsigned_abs(),
        _ => 0,
    }
}

fn main() {
    let words: Vec<String> = env::args().collect();
    let number = |place: usize| words[place].parse::<u64>().expect("a number");
    let mut node = Node { modules: HashMap::new(), processes: Processes::default() };
    let step = node.fill(&words[1], number(2), number(3));
    node.turn(&step).expect("a turn");
    let (mut steps, mut sum) = (Duration::ZERO, 0_u64);
    let start = Instant::now();
    for _ in 0..number(4) {
        let (time, seen) = node.turn(&step).expect("a turn");
        steps += time;
        sum = sum.wrapping_add(seen);
    }
    println!("{} {} {sum}", start.elapsed().as_nanos(), steps.as_nanos());
}
