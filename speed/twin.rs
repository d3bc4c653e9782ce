//! The program of speed/bench in plain Rust: the same representation (a slab with a free list, the same stamps, marks,
//! change number and cursors) and the same phases of nodes and cursors. It is what speed/bench is compared with; see
//! docs/SPEED.md.
#![allow(dead_code)]

mod list;
mod split;
mod stopwatch;
mod tally;

use list::{Cursor, Kind, NodeList, link, look, mark, seek, swap, sweep};
use split::{SortKey, bucket_of, key_at, parent};
use std::time::Instant;
use stopwatch::report;

const SIZE: u32 = 65_536;
const FEW_KEYS: u64 = 10_000;

// ---- keys from the dummies of a fixed number of buckets ----

struct NodeTable {
    list: NodeList,
    dummies: Vec<u32>,
}

fn is_start(list: &NodeList, from: u32, at: SortKey) -> bool {
    match list.linked_node(from) {
        Some(node) => node.kind() == Kind::Dummy && node.at().is_before(at),
        None => false,
    }
}

fn is_key_there(list: &NodeList, cursor: &Cursor) -> bool {
    match look(list, cursor) {
        Ok(Some(place)) => list.node(place).kind() == Kind::Regular,
        _ => false,
    }
}

fn put(list: &mut NodeList, from: u32, at: SortKey, kind: Kind, value: u64) -> Option<u32> {
    let spare = list.spare()?;
    if !is_start(list, from, at) {
        return None;
    }
    let cursor = seek(list, from, at);
    match look(list, &cursor) {
        Ok(None) => link(list, cursor, spare.fill(at, kind, value)).ok(),
        _ => {
            list.give_back(spare);
            None
        }
    }
}

fn value_of(list: &mut NodeList, from: u32, at: SortKey) -> Option<u64> {
    if !is_start(list, from, at) {
        return None;
    }
    let cursor = seek(list, from, at);
    match look(list, &cursor) {
        Ok(Some(place)) => Some(list.node(place).value),
        _ => None,
    }
}

fn write(list: &mut NodeList, from: u32, at: SortKey, value: u64) -> Option<u64> {
    if !is_start(list, from, at) {
        return None;
    }
    let cursor = seek(list, from, at);
    if !is_key_there(list, &cursor) {
        return None;
    }
    swap(list, cursor, value).ok()
}

fn take(list: &mut NodeList, from: u32, at: SortKey) -> Option<u64> {
    if !is_start(list, from, at) {
        return None;
    }
    let cursor = seek(list, from, at);
    if !is_key_there(list, &cursor) {
        return None;
    }
    mark(list, cursor).ok()
}

impl NodeTable {
    fn new() -> NodeTable {
        let mut list = NodeList::new(0, 0);
        let mut dummies = vec![list.head];
        for bucket in 1..SIZE {
            let from = dummies[parent(bucket) as usize];
            if let Some(place) = put(&mut list, from, SortKey::dummy(bucket), Kind::Dummy, 0) {
                dummies.push(place);
            }
        }
        NodeTable { list, dummies }
    }

    fn dummy_of(&self, key: u64) -> u32 {
        match self.dummies.get(bucket_of(key, SIZE) as usize) {
            Some(place) => *place,
            None => self.list.head,
        }
    }

    fn insert(&mut self, key: u64, value: u64) -> bool {
        let from = self.dummy_of(key);
        put(
            &mut self.list,
            from,
            SortKey::regular(key),
            Kind::Regular,
            value,
        )
        .is_some()
    }

    fn get(&mut self, key: u64) -> Option<u64> {
        let from = self.dummy_of(key);
        value_of(&mut self.list, from, SortKey::regular(key))
    }

    fn swap(&mut self, key: u64, value: u64) -> Option<u64> {
        let from = self.dummy_of(key);
        write(&mut self.list, from, SortKey::regular(key), value)
    }

    fn mark(&mut self, key: u64) -> Option<u64> {
        let from = self.dummy_of(key);
        take(&mut self.list, from, SortKey::regular(key))
    }
}

// ---- the phases ----

fn timed(phase: &str, operations: u64, run: impl FnOnce() -> u64) {
    let start = Instant::now();
    let sum = run();
    report("nodes", phase, start.elapsed(), operations, sum);
}

fn sum_of(keys: u64, mut answer: impl FnMut(u64, u64) -> u64) -> u64 {
    let mut sum = 0u64;
    for position in 0..keys {
        sum = sum.wrapping_add(answer(position, key_at(position)));
    }
    sum
}

fn time_nodes(keys: u64) {
    let mut made = None;
    timed("dummies", u64::from(SIZE), || {
        made = Some(NodeTable::new());
        u64::from(SIZE)
    });
    let Some(mut table) = made else { return };
    timed("insert", keys, || {
        sum_of(keys, |position, key| u64::from(table.insert(key, position)))
    });
    timed("get", keys, || {
        sum_of(keys, |_, key| table.get(key).unwrap_or(0))
    });
    timed("swap", keys / 2, || {
        sum_of(keys / 2, |_, key| table.swap(key, 1).unwrap_or(0))
    });
    timed("mark", keys / 4, || {
        sum_of(keys / 4, |_, key| table.mark(key).unwrap_or(0))
    });
    timed("sweep", keys / 1000, || {
        (0..keys / 1000)
            .map(|_| u64::from(sweep(&mut table.list)))
            .sum()
    });
    timed("unlink", keys, || {
        sum_of(keys, |_, key| table.get(key).unwrap_or(0))
    });
}

fn main() {
    let keys = match std::env::args().nth(1) {
        Some(text) => text.parse().expect("the number of keys"),
        None => FEW_KEYS,
    };
    time_nodes(keys);
}
