//! Writes a history file, as `judge check` reads it, of a store without locks: 64 callers, each in a transaction of one to
//! eight operations, whose entries are interleaved; each put has a value of its own. A transaction that changes something
//! reads what is committed, and commits only if this is so still, so these are serializable in the order of their commits.
//! One in four only reads: with `commits` as the others do, with `order` from the map as it was when it began, so that it
//! stands before those that have committed since.
//!
//! Usage: orders ENTRIES KEYS commits|order
use std::collections::HashMap;
use std::env;
use std::io::{self, BufWriter, Write};

const CALLERS: usize = 64;

/// Random words, by xorshift.
struct Random(u64);

impl Random {
    fn below(&mut self, end: u64) -> u64 {
        self.0 ^= self.0 << 13;
        self.0 ^= self.0 >> 7;
        self.0 ^= self.0 << 17;
        self.0 % end
    }
}

/// What the committed transactions have left at each key, with the number of commits since when.
#[derive(Default)]
struct Store {
    versions: HashMap<u64, Vec<(u64, u64)>>,
    commits: u64,
    began: u64,
    last_value: u64,
}

impl Store {
    fn at(&self, key: u64, commits: u64) -> Option<u64> {
        let versions = self.versions.get(&key)?;
        versions.iter().rev().find(|(since, _)| *since <= commits).map(|(_, value)| *value)
    }

    fn now(&self, key: u64) -> Option<u64> {
        self.at(key, self.commits)
    }
}

#[derive(Default)]
struct Caller {
    is_open: bool,
    only_reads: bool,
    // How many operations are left, and how many had committed when it began.
    left: u64,
    began_at: u64,
    // What it read first and has put at each key, and the keys of its puts.
    read: HashMap<u64, Option<u64>>,
    own: HashMap<u64, u64>,
    puts: u64,
}

fn text_of(value: Option<u64>) -> String {
    value.map_or_else(|| "null".into(), |value| value.to_string())
}

impl Caller {
    fn begin(&mut self, number: usize, store: &mut Store, draws: &mut Random) -> String {
        store.began += 1;
        *self = Caller { is_open: true, only_reads: draws.below(4) == 0, left: 1 + draws.below(8), began_at: store.commits, ..Caller::default() };
        format!("[\"began\",{number},{}]", store.began)
    }

    fn operate(&mut self, number: usize, key: u64, is_stale: bool, store: &mut Store, draws: &mut Random) -> String {
        self.left -= 1;
        let committed = if self.only_reads && is_stale { store.at(key, self.began_at) } else { store.now(key) };
        let first = *self.read.entry(key).or_insert(committed);
        let reply = text_of(self.own.get(&key).copied().or(first));
        if self.only_reads || draws.below(2) == 0 {
            return format!("[\"asked\",{number},\"get\",{key}],[\"did\",{number},{reply}]");
        }
        store.last_value += 1;
        let value = store.last_value;
        self.own.insert(key, value);
        self.puts += 1;
        format!("[\"asked\",{number},\"put\",{key},{value}],[\"did\",{number},{reply}]")
    }

    fn end(&mut self, number: usize, is_stale: bool, store: &mut Store) -> String {
        self.is_open = false;
        let may_be_old = self.only_reads && is_stale;
        if !may_be_old && self.read.iter().any(|(key, first)| store.now(*key) != *first) {
            let undone = format!(",[\"undone\",{number}]").repeat(self.puts as usize);
            return format!("[\"leave\",{number},null]{undone},[\"aborted\",{number}]");
        }
        store.commits += 1;
        for (key, value) in self.own.drain() {
            store.versions.entry(key).or_default().push((store.commits, value));
        }
        format!("[\"committed\",{number},{}]", store.commits)
    }
}

fn main() -> io::Result<()> {
    let words: Vec<String> = env::args().skip(1).collect();
    let (Some(entries), Some(keys), Some(kind)) = (words.first(), words.get(1), words.get(2)) else {
        return Err(io::Error::other("usage: orders ENTRIES KEYS commits|order"));
    };
    let number = |word: &String| word.parse().map_err(io::Error::other);
    let (most, keys, is_stale): (u64, u64, bool) = (number(entries)?, number(keys)?, kind == "order");
    let mut out = BufWriter::new(io::stdout().lock());
    let (mut store, mut draws) = (Store::default(), Random(88_172_645_463_325_252));
    let mut callers: Vec<Caller> = (0..CALLERS).map(|_| Caller::default()).collect();
    let mut written = 0;
    write!(out, "{{\"version\":1,\"stripes\":4096,\"entries\":[")?;
    while written < most {
        let number = draws.below(CALLERS as u64) as usize;
        let key = draws.below(keys);
        let caller = &mut callers[number];
        let text = match (caller.is_open, caller.left) {
            (false, _) => caller.begin(number, &mut store, &mut draws),
            (true, 0) => caller.end(number, is_stale, &mut store),
            (true, _) => caller.operate(number, key, is_stale, &mut store, &mut draws),
        };
        write!(out, "{}{text}", if written == 0 { "" } else { "," })?;
        written += text.matches('[').count() as u64;
    }
    write!(out, "]}}")
}
