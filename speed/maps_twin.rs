//! The part `maps` of speed/bench in plain Rust: the same table at two largest sizes, a sorted map and a hash map, and the
//! same operations; see docs/SPEED.md.
//!
//! Usage: maps_twin KEYS
#![allow(dead_code)]

mod list;
mod machine;
mod split;
mod step;
mod stopwatch;
mod tally;

use machine::Table;
use split::key_at;
use std::collections::{BTreeMap, HashMap};
use std::env;
use std::error::Error;
use std::time::Instant;
use step::{Answer, Op, Refusal, Reply};
use stopwatch::report;

const BUCKETS: u32 = 65_536;
const MANY_BUCKETS: u32 = 1_048_576;
const OPERATIONS: u64 = 1_000_000;

trait AnyMap {
    /// Does an operation, and answers the value that its key had before it.
    fn run(&mut self, op: Op) -> Result<Reply, Refusal>;
}

fn store_bucket(table: &mut Table, bucket: u32) -> Result<(), Refusal> {
    table.init_seek(0, u64::from(bucket))?;
    table.init_link(0)?;
    table.init_store(0)?;
    Ok(())
}

impl AnyMap for Table {
    fn run(&mut self, op: Op) -> Result<Reply, Refusal> {
        let reply = self.apply(op)?;
        if let Op::Put(..) = op {
            let size = self.size();
            if let Answer::Doubled(doubled) = self.double(u64::from(size)) {
                for bucket in size..doubled as u32 {
                    store_bucket(self, bucket)?;
                }
            }
        }
        Ok(reply)
    }
}

impl AnyMap for BTreeMap<u64, u64> {
    fn run(&mut self, op: Op) -> Result<Reply, Refusal> {
        Ok(match op {
            Op::Put(key, value) => self.insert(key, value),
            Op::Take(key) => self.remove(&key),
            Op::Get(key) => self.get(&key).copied(),
            Op::PutIf(..) => unreachable!("no operation here is one"),
        })
    }
}

impl AnyMap for HashMap<u64, u64> {
    fn run(&mut self, op: Op) -> Result<Reply, Refusal> {
        Ok(match op {
            Op::Put(key, value) => self.insert(key, value),
            Op::Take(key) => self.remove(&key),
            Op::Get(key) => self.get(&key).copied(),
            Op::PutIf(..) => unreachable!("no operation here is one"),
        })
    }
}

/// Half of the operations look up a key, a quarter put one and a quarter take one.
fn mixed_op(position: u64, keys: u64) -> Op {
    let drawn = key_at(position + (1 << 40));
    let key = key_at((drawn >> 8) % (2 * keys));
    match drawn % 4 {
        0 => Op::Put(key, position),
        1 => Op::Take(key),
        _ => Op::Get(key),
    }
}

fn time_ops<M: AnyMap>(
    name: &str,
    phase: &str,
    map: &mut M,
    operations: u64,
    op_at: impl Fn(u64) -> Op,
) -> Result<(), Box<dyn Error>> {
    let start = Instant::now();
    let mut sum = 0u64;
    for position in 0..operations {
        let reply = map.run(op_at(position)).map_err(|_| "refused")?;
        sum = sum.wrapping_add(reply.unwrap_or(1));
    }
    report(name, phase, start.elapsed(), operations, sum);
    Ok(())
}

fn time_map<M: AnyMap>(name: &str, mut map: M, keys: u64) -> Result<(), Box<dyn Error>> {
    time_ops(name, "fill", &mut map, keys, |position| {
        Op::Put(key_at(position), position)
    })?;
    time_ops(name, "mixed", &mut map, OPERATIONS, |position| {
        mixed_op(position, keys)
    })
}

fn time_table(name: &str, buckets: u32, keys: u64) -> Result<(), Box<dyn Error>> {
    let mut table = Table::new(buckets, 1, 0);
    store_bucket(&mut table, 1).map_err(|_| "refused")?;
    time_map(name, table, keys)
}

fn main() -> Result<(), Box<dyn Error>> {
    let keys = env::args().nth(1).ok_or("the number of keys")?.parse()?;
    time_table("table", BUCKETS, keys)?;
    time_table("large", MANY_BUCKETS, keys)?;
    time_map("sorted", BTreeMap::new(), keys)?;
    time_map("hashed", HashMap::new(), keys)
}
