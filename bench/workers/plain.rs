//! Workers round a table of processes as they are written in plain Rust, for figures to compare with: the table of
//! bench/processes behind a `Mutex`, with the undos of all steps and the replies, and threads that take, work without the lock,
//! and commit.
//!
//! `plain job LOOPS TURNS` and `plain drain REQUEST LOOPS WORKERS CALLS` do as `main.rattle` does; REQUEST is `bump` or `wide`,
//! and each callback turns LOOPS times in a loop before it counts on. `plain round WORKERS` answers each line of the standard
//! input once workers have answered a call, for which they wait at a `Condvar`. Build it by
//! `rustc -O --edition 2021 bench/workers/plain.rs`.

#[allow(dead_code)]
mod table {
    include!("../processes/plain_table.rs");

    /// What threads share, and what they do.
    pub mod threads {
        use super::*;
        use std::hint::black_box;
        use std::io::{self, BufRead, Write};
        use std::sync::atomic::{AtomicU64, Ordering};
        use std::sync::{Condvar, Mutex, MutexGuard};
        use std::thread;

        const SERVERS: u64 = 16;
        const PAIRS: i64 = 1_000;
        const CLIENT: u64 = 1;

        /// What lies behind the lock.
        struct Core {
            node: Node,
            undos: Vec<Undo>,
            replies: Vec<Reply>,
            calls: u64,
            is_over: bool,
        }

        struct Shared {
            core: Mutex<Core>,
            came: Condvar,
            answered: Condvar,
        }

        impl Core {
            /// Servers whose state is an integer, or a list of so many pairs, a pair and the rest each.
            fn new(pairs: i64) -> Core {
                let node = Node { modules: HashMap::new(), processes: Processes::default() };
                let mut core = Core { node, undos: Vec::new(), replies: Vec::new(), calls: 0, is_over: false };
                let server = core.node.load(1, "ctr", |_| true);
                for pid in 1..=SERVERS {
                    let state = match pairs {
                        0 => Term::Int(0),
                        _ => (1..=pairs).fold(atom("end"), |rest, key| tuple([tuple([Term::Int(key), Term::Int(0)]), rest])),
                    };
                    let place = Place::Server { module: server.name.clone(), state };
                    self::start(&mut core.node, pid, place, &server);
                }
                core
            }

            fn call(&mut self, name: &Atom) {
                self.calls += 1;
                let undo = self.node.processes.arrive(CLIENT, name, &bump(self.calls)).expect("an arrival");
                self.undos.push(undo);
            }

            /// The job of the process that is next above a pid, or else of the least.
            fn take_any(&mut self, above: u64) -> Option<Job> {
                let pid = self.node.processes.runnable(above).or_else(|| self.node.processes.runnable(0))?;
                let (job, undo) = self.node.processes.take(&self.node.modules, pid).expect("a job");
                self.undos.push(undo);
                Some(job)
            }

            fn commit(&mut self, done: &Done) {
                let (replies, undo) = self.node.processes.commit(done).expect("a commit");
                self.undos.push(undo);
                self.replies.extend(replies);
            }
        }

        fn start(node: &mut Node, pid: u64, place: Place, server: &Instance) {
            node.processes.start(Some(name_of(pid)), place, std::slice::from_ref(server)).expect("a start");
        }

        impl Shared {
            fn new(pairs: i64) -> Shared {
                Shared { core: Mutex::new(Core::new(pairs)), came: Condvar::new(), answered: Condvar::new() }
            }

            fn lock(&self) -> MutexGuard<'_, Core> {
                self.core.lock().expect("a lock")
            }
        }

        /// What a callback gives, behind so many turns of a loop: a state that is counted on, or the first pair of one.
        fn work(job: Job, loops: u64) -> Done {
            black_box((0..loops).fold(0_u64, |sum, turn| black_box(sum ^ turn)));
            let Place::Server { module, state } = &job.place else { panic!("no server") };
            let (module, [pair, rest]) = (module.clone(), state.items()) else { return done(job).expect("what it has done") };
            let [key, Term::Int(value)] = pair.items() else { panic!("no pair") };
            let term = Term::Int(value + 1);
            let state = tuple([tuple([key.clone(), term.clone()]), rest.clone()]);
            let Some(Term::Int(number)) = job.message.items()[1].items().get(1) else { panic!("no call") };
            let number = u64::try_from(*number).expect("a number");
            Done { job, answers: vec![Answer { number, term }], rests: Place::Server { module, state } }
        }

        /// Serves until no call is left.
        fn serve(shared: &Shared, left: &AtomicU64, loops: u64) {
            let mut above = 0;
            while left.load(Ordering::SeqCst) != 0 {
                let taken = shared.lock().take_any(above);
                let Some(job) = taken else {
                    thread::yield_now();
                    continue;
                };
                above = job.pid;
                let done = work(job, loops);
                shared.lock().commit(&done);
                left.fetch_sub(1, Ordering::SeqCst);
            }
        }

        /// Serves until the day is over: where nobody could take a message, it waits for a call.
        fn serve_day(shared: &Shared) {
            let mut above = 0;
            let mut core = shared.lock();
            while !core.is_over {
                let Some(job) = core.take_any(above) else {
                    core = shared.came.wait(core).expect("a lock");
                    continue;
                };
                drop(core);
                above = job.pid;
                let done = work(job, 0);
                core = shared.lock();
                core.commit(&done);
                shared.answered.notify_one();
            }
        }

        /// Answers lines.
        fn answer(shared: &Shared) {
            let name = name_of(1);
            for _ in io::stdin().lock().lines() {
                let mut core = shared.lock();
                core.call(&name);
                shared.came.notify_one();
                while (core.replies.len() as u64) < core.calls {
                    core = shared.answered.wait(core).expect("a lock");
                }
                let value = core.replies.last().map_or(0, seen_of);
                drop(core);
                println!("{value}");
                io::stdout().flush().expect("an answer is written");
            }
            shared.lock().is_over = true;
            shared.came.notify_all();
        }

        fn drain(pairs: i64, loops: u64, workers: u64, calls: u64) {
            let shared = Shared::new(pairs);
            let names: Vec<Atom> = (1..=SERVERS).map(name_of).collect();
            for _ in 0..calls {
                names.iter().for_each(|name| shared.lock().call(name));
            }
            let left = AtomicU64::new(calls * SERVERS);
            let start = Instant::now();
            thread::scope(|scope| {
                (0..workers).for_each(|_| drop(scope.spawn(|| serve(&shared, &left, loops))));
            });
            let time = start.elapsed().as_nanos();
            let core = shared.lock();
            let sum: u64 = core.replies.iter().map(seen_of).sum();
            println!("{time} {} {sum} {} 0", core.replies.len(), core.undos.len());
        }

        fn evaluate(loops: u64, turns: u64) {
            let mut core = Core::new(0);
            core.call(&name_of(1));
            let job = core.take_any(0).expect("a job");
            let start = Instant::now();
            for _ in 0..turns {
                let Job { pid, turn, place, entry_serial, message, code } = &job;
                let (place, message, code) = (place.clone(), message.clone(), code.clone());
                drop(black_box(work(Job { pid: *pid, turn: *turn, place, entry_serial: *entry_serial, message, code }, loops)));
            }
            println!("{}", start.elapsed().as_nanos());
        }

        pub fn main() {
            let words: Vec<String> = env::args().collect();
            let number = |place: usize| words[place].parse::<u64>().expect("a number");
            match words[1].as_str() {
                "job" => evaluate(number(2), number(3)),
                "drain" => drain(if words[2] == "wide" { PAIRS } else { 0 }, number(3), number(4), number(5)),
                "round" => {
                    let shared = Shared::new(0);
                    thread::scope(|scope| {
                        (0..number(2)).for_each(|_| drop(scope.spawn(|| serve_day(&shared))));
                        answer(&shared);
                    });
                }
                _ => panic!("no measure"),
            }
        }
    }
}

fn main() {
    table::threads::main();
}
