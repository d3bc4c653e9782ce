//! What the part `words` of speed/bench times, with a mutex a stripe in plain Rust: each thread locks a stripe that no other has,
//! and unlocks it, over and over.

use std::sync::Mutex;
use std::thread;
use std::time::Instant;

const STRIPES: usize = 4096;
const STRIDE: usize = 1021;

fn main() {
    let mut words = std::env::args().skip(1).map(|word| word.parse::<u64>().unwrap());
    let threads = words.next().unwrap();
    let takes = words.next().unwrap();
    let mutexes: Vec<Mutex<()>> = (0..STRIPES).map(|_| Mutex::new(())).collect();
    let start = Instant::now();
    let granted: u64 = thread::scope(|scope| {
        let workers: Vec<_> = (0..threads)
            .map(|first| {
                let mutexes = &mutexes;
                scope.spawn(move || {
                    let mut stripe = first as usize;
                    let mut granted = 0;
                    for _ in 0..takes {
                        if let Ok(_guard) = mutexes[stripe].try_lock() {
                            granted += 1;
                        }
                        stripe = (stripe + STRIDE * threads as usize) % STRIPES;
                    }
                    granted
                })
            })
            .collect();
        workers.into_iter().map(|worker| worker.join().unwrap()).sum()
    });
    let each = start.elapsed().as_nanos() / u128::from(takes);
    eprintln!("{threads} threads, {takes} takes each, {each} ns a take and a give, {granted} granted");
}
