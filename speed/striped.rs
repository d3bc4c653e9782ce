//! The transactions of striped.cpp in plain Rust, at its best: with a mutex a stripe over a `HashMap` with a fast hasher and an undo
//! log, where a stripe is tried and not waited for (`mutexes`); and with one mutex over one such map (`one`). Neither has a history,
//! savepoints or numbers of commits.
//! Usage: striped mutexes|one THREADS KEYS TRANSACTIONS shared|own; prints what striped.cpp prints.

use std::collections::HashMap;
use std::hash::{BuildHasherDefault, Hasher};
use std::sync::{Barrier, Mutex, MutexGuard};
use std::thread;
use std::time::Instant;

const STRIPES: u64 = 4096;

#[derive(Clone, Copy)]
enum Op {
    Put(u64, u64),
    Take(u64),
    Get(u64),
}

impl Op {
    fn key(self) -> u64 {
        match self {
            Op::Put(key, _) | Op::Take(key) | Op::Get(key) => key,
        }
    }

    /// Does the operation, and answers the value before, and whether it must be put back by an abort.
    fn apply(self, map: &mut Map) -> (Option<u64>, bool) {
        match self {
            Op::Put(key, value) => (map.insert(key, value), true),
            Op::Take(key) => {
                let before = map.remove(&key);
                (before, before.is_some())
            }
            Op::Get(key) => (map.get(&key).copied(), false),
        }
    }
}

/// A multiplication and a shift: a fast hash for keys that nobody chooses.
#[derive(Default)]
struct Mix(u64);

impl Hasher for Mix {
    fn finish(&self) -> u64 {
        self.0
    }

    fn write(&mut self, _: &[u8]) {
        unreachable!("keys are whole numbers")
    }

    fn write_u64(&mut self, key: u64) {
        let product = key.wrapping_mul(0x9e37_79b9_7f4a_7c15);
        self.0 = product ^ (product >> 32);
    }
}

type Map = HashMap<u64, u64, BuildHasherDefault<Mix>>;

fn take_back(map: &mut Map, key: u64, before: Option<u64>) {
    match before {
        Some(value) => map.insert(key, value),
        None => map.remove(&key),
    };
}

/// splitmix64; `threads` is 0 if all threads share the stripes.
struct Draws {
    state: u64,
    keys: u64,
    thread: u64,
    threads: u64,
}

impl Draws {
    fn next(&mut self) -> u64 {
        self.state = self.state.wrapping_add(0x9e37_79b9_7f4a_7c15);
        let z = (self.state ^ (self.state >> 30)).wrapping_mul(0xbf58_476d_1ce4_e5b9);
        let z = (z ^ (z >> 27)).wrapping_mul(0x94d0_49bb_1331_11eb);
        z ^ (z >> 31)
    }

    fn key(&self, drawn: u64) -> u64 {
        match STRIPES.checked_div(self.threads) {
            None => drawn,
            Some(each) => drawn / STRIPES * STRIPES + drawn % each + self.thread * each,
        }
    }

    /// The operations of a transaction, and whether it commits.
    fn one(&mut self) -> ([Op; 4], bool) {
        let ops = [(); 4].map(|()| {
            let z = self.next();
            let key = self.key((z >> 32) % self.keys);
            match z & 3 {
                0 | 1 => Op::Put(key, z >> 20 & 0xfffff),
                2 => Op::Take(key),
                _ => Op::Get(key),
            }
        });
        (ops, self.next() % 10 != 0)
    }
}

/// What a thread keeps between its transactions.
trait Caller {
    /// One transaction, and the sum of its replies; none if a stripe was held.
    fn run(&mut self, ops: &[Op; 4], commits: bool) -> Option<u64>;
}

/// The stripes that a transaction holds, and what it takes back: the place of a stripe, a key and the value before.
struct Striped<'a> {
    stripes: &'a [Mutex<Map>],
    held: Vec<(usize, MutexGuard<'a, Map>)>,
    log: Vec<(usize, u64, Option<u64>)>,
}

impl Striped<'_> {
    /// The place of a stripe in the list of those that are held.
    fn hold(&mut self, stripe: usize) -> Option<usize> {
        if let Some(place) = self.held.iter().position(|held| held.0 == stripe) {
            return Some(place);
        }
        let guard = self.stripes[stripe].try_lock().ok()?;
        self.held.push((stripe, guard));
        Some(self.held.len() - 1)
    }

    fn end(&mut self, keeps: bool) {
        while let Some((place, key, before)) = self.log.pop() {
            if !keeps {
                take_back(&mut self.held[place].1, key, before);
            }
        }
        self.held.clear();
    }
}

impl Caller for Striped<'_> {
    fn run(&mut self, ops: &[Op; 4], commits: bool) -> Option<u64> {
        let mut sum = 0u64;
        for op in ops {
            let Some(place) = self.hold((op.key() % STRIPES) as usize) else {
                self.end(false);
                return None;
            };
            let (before, changes) = op.apply(&mut self.held[place].1);
            if changes {
                self.log.push((place, op.key(), before));
            }
            sum = sum.wrapping_add(before.unwrap_or(u64::MAX));
        }
        self.end(commits);
        Some(sum)
    }
}

struct One<'a> {
    map: &'a Mutex<Map>,
    log: Vec<(u64, Option<u64>)>,
}

impl Caller for One<'_> {
    fn run(&mut self, ops: &[Op; 4], commits: bool) -> Option<u64> {
        let mut map = self.map.lock().unwrap();
        let mut sum = 0u64;
        for op in ops {
            let (before, changes) = op.apply(&mut map);
            if changes {
                self.log.push((op.key(), before));
            }
            sum = sum.wrapping_add(before.unwrap_or(u64::MAX));
        }
        while let Some((key, before)) = self.log.pop() {
            if !commits {
                take_back(&mut map, key, before);
            }
        }
        Some(sum)
    }
}

unsafe extern "C" {
    /// Microseconds of processor time of the process.
    safe fn clock() -> i64;
}

fn measure<C: Caller>(threads: u64, keys: u64, count: u64, own: bool, caller: impl Fn() -> C + Sync) {
    let mut first = caller();
    for key in (0..keys).filter(|key| key % 3 != 0) {
        first.run(&[Op::Put(key, key), Op::Get(key), Op::Get(key), Op::Get(key)], true);
    }
    drop(first);
    let barrier = Barrier::new(threads as usize + 1);
    let (begun, used, told) = thread::scope(|scope| {
        let workers: Vec<_> = (0..threads)
            .map(|thread| {
                let (caller, barrier) = (&caller, &barrier);
                scope.spawn(move || {
                    let mut me = caller();
                    let mut draws = Draws { state: thread * 7919 + 1, keys, thread, threads: if own { threads } else { 0 } };
                    let [mut sum, mut busy] = [0u64; 2];
                    barrier.wait();
                    for _ in 0..count {
                        let (ops, commits) = draws.one();
                        match me.run(&ops, commits) {
                            Some(answered) => sum = sum.wrapping_add(answered),
                            None => busy += 1,
                        }
                    }
                    [sum, busy]
                })
            })
            .collect();
        let used = clock();
        barrier.wait();
        (Instant::now(), used, workers.into_iter().map(|worker| worker.join().unwrap()).collect::<Vec<_>>())
    });
    let (seconds, spent) = (begun.elapsed().as_secs_f64(), (clock() - used) as f64);
    let [sum, busy] = told.iter().fold([0u64; 2], |all, one| [all[0].wrapping_add(one[0]), all[1] + one[1]]);
    let all = (threads * count) as f64;
    let done = all - busy as f64;
    println!("{:.4} {:.0} {:.5} {sum}", done / seconds / 1e6, spent * 1e3 / done, busy as f64 / all);
}

fn main() {
    let words: Vec<String> = std::env::args().skip(1).collect();
    let [threads, keys, count] = [1, 2, 3].map(|place: usize| words[place].parse().unwrap());
    let own = words[4] == "own";
    match words[0].as_str() {
        "mutexes" => {
            let stripes: Vec<Mutex<Map>> = (0..STRIPES).map(|_| Mutex::default()).collect();
            measure(threads, keys, count, own, || Striped { stripes: &stripes, held: Vec::new(), log: Vec::new() });
        }
        "one" => {
            let map = Mutex::default();
            measure(threads, keys, count, own, || One { map: &map, log: Vec::new() });
        }
        _ => panic!("mutexes or one"),
    }
}
