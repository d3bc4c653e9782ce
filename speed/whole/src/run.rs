//! Workers in threads, over one core under one mutex. Each call takes the mutex once.
use crate::files::Scripts;
use crate::machine::{Core, Entry, Event};
use crate::mix::{Worker, turn};
use crate::step::Reply;
use std::mem::take;
use std::sync::Mutex;
use std::sync::atomic::{AtomicU64, Ordering};
use std::thread;

/// Lets other threads go on if the worker found a stripe held and begins its script again.
fn give_way(before: u64, worker: &Worker) {
    if before < worker.again {
        thread::yield_now();
    }
}

/// Takes a worker's turns to the end of its call, and answers whether it is live after it.
fn call(core: &mut Core, worker: &mut Worker, file: &Scripts) -> bool {
    loop {
        if !turn(core, worker, file) {
            return false;
        }
        if worker.is_at_call() {
            return true;
        }
    }
}

/// Takes a worker's calls to its end.
fn work(core: &Mutex<Core>, mut worker: Worker, file: &Scripts) {
    let mut is_live = true;
    while is_live {
        let again = worker.again;
        is_live = call(&mut core.lock().unwrap(), &mut worker, file);
        give_way(again, &worker);
    }
}

/// The core after all scripts.
pub fn run(file: &Scripts) -> Core {
    let core = Mutex::new(Core::new(file.limits, file.room()));
    thread::scope(|scope| {
        for worker in file.live_workers() {
            let core = &core;
            scope.spawn(move || work(core, worker, file));
        }
    });
    core.into_inner().unwrap()
}

/// How a script ended whose transaction is committed: its number, its place, its replies.
struct Outcome {
    txn: u64,
    place: u64,
    replies: Vec<Reply>,
}

/// A worker that keeps the entries that it saw. If `ALL`, it does all that `boostmap run` promises
/// beside the history: it also takes the word of a stripe before it asks for it, and keeps how each
/// script ended.
struct Keeper<'a, const ALL: bool> {
    words: &'a [AtomicU64],
    number: u64,
    held: Vec<usize>,
    seen: Vec<Entry>,
    txn: u64,
    replies: Vec<Reply>,
    outcomes: Vec<Option<Outcome>>,
}

impl<'a, const ALL: bool> Keeper<'a, ALL> {
    fn new(words: &'a [AtomicU64], number: u64) -> Keeper<'a, ALL> {
        Keeper {
            words,
            number,
            held: Vec::new(),
            seen: Vec::new(),
            txn: 0,
            replies: Vec::new(),
            outcomes: Vec::new(),
        }
    }

    /// Tries the word of the stripe of the worker's next operation, in one try, unless it has none
    /// or holds the stripe already.
    fn try_word(&mut self, worker: &Worker) {
        let Some(op) = worker.asks() else {
            return;
        };
        let stripe = (op.key() % self.words.len() as u64) as usize;
        if self.held.contains(&stripe) {
            return;
        }
        let (own, order) = (self.number + 1, Ordering::SeqCst);
        if self.words[stripe].compare_exchange(0, own, order, order).is_ok() {
            self.held.push(stripe);
        }
    }

    /// Gives all words back.
    fn give_back(&mut self) {
        while let Some(stripe) = self.held.pop() {
            self.words[stripe].store(0, Ordering::SeqCst);
        }
    }

    /// Notes the effect of one of its own entries on its script.
    fn hear(&mut self, entry: Entry) {
        match entry.event {
            Event::Began => {
                self.txn = entry.number;
                self.replies.clear();
            }
            Event::Did => self.replies.push(Some(entry.number)),
            Event::DidNone => self.replies.push(None),
            Event::Committed => {
                self.outcomes.push(Some(Outcome {
                    txn: self.txn,
                    place: entry.number,
                    replies: take(&mut self.replies),
                }));
                self.give_back();
            }
            Event::Aborted => {
                self.outcomes.push(None);
                self.give_back();
            }
            _ => {}
        }
    }

    /// Takes a worker's calls to its end.
    fn work(mut self, core: &Mutex<Core>, mut worker: Worker, file: &Scripts) -> Keeper<'a, ALL> {
        let mut is_live = true;
        while is_live {
            if ALL {
                self.try_word(&worker);
            }
            let (again, heard) = (worker.again, self.seen.len());
            {
                let mut core = core.lock().unwrap();
                let before = core.history().len();
                is_live = call(&mut core, &mut worker, file);
                self.seen.extend_from_slice(&core.history()[before..]);
            }
            if ALL {
                for place in heard..self.seen.len() {
                    self.hear(self.seen[place]);
                }
            }
            give_way(again, &worker);
        }
        self
    }
}

/// The core after all scripts, of workers that keep what they saw and do no more.
pub fn run_seen(file: &Scripts) -> Core {
    keep::<false>(file)
}

/// The core after all scripts, of workers that do all that `boostmap run` promises.
pub fn run_kept(file: &Scripts) -> Core {
    keep::<true>(file)
}

/// The core after all scripts, of workers that keep what they saw; their entries in its history are
/// compared with it.
fn keep<const ALL: bool>(file: &Scripts) -> Core {
    let core = Mutex::new(Core::new(file.limits, file.room()));
    let words: Vec<AtomicU64> = (0..file.limits.stripes).map(|_| AtomicU64::new(0)).collect();
    let keepers: Vec<Keeper<ALL>> = thread::scope(|scope| {
        let threads: Vec<_> = file
            .live_workers()
            .into_iter()
            .map(|worker| {
                let (core, words) = (&core, &words);
                scope.spawn(move || Keeper::new(words, worker.number).work(core, worker, file))
            })
            .collect();
        threads.into_iter().map(|thread| thread.join().unwrap()).collect()
    });
    let core = core.into_inner().unwrap();
    for keeper in &keepers {
        let own = core.history().iter().filter(|entry| u64::from(entry.caller) == keeper.number);
        assert!(own.eq(keeper.seen.iter()));
    }
    core
}
