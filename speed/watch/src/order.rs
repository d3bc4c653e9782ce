//! In any order: the footprints of the committed transactions, and a serial order of them by a graph, as `judge check
//! --serializable` looks for one. It does not say why there is none.
use crate::entry::{Op, Reply};
use crate::judge::{Rule, Rules, CALLERS};
use crate::rules::Footprint;
use std::collections::HashMap;

/// What a committed transaction needs at a key, and what it leaves there.
struct Access {
    txn: u32,
    key: u64,
    need: Reply,
    left: Reply,
}

pub struct Order {
    footprints: Vec<Footprint>,
    accesses: Vec<Access>,
    commits: u32,
    is_torn: bool,
}

impl Order {
    pub fn new() -> Order {
        Order {
            footprints: (0..CALLERS).map(|_| Footprint::default()).collect(),
            accesses: Vec::new(),
            commits: 0,
            is_torn: false,
        }
    }

    /// Whether each transaction finds what it needs, in the order of the commits.
    fn runs_in_turn(&self) -> bool {
        let mut map = HashMap::new();
        self.accesses.iter().all(|access| {
            let found = map.insert(access.key, access.left);
            found.unwrap_or(None) == access.need
        })
    }

    /// The edges of each transaction: those that must come after it. None if nobody leaves a value that is needed.
    fn edges(&self) -> Option<Vec<Vec<u32>>> {
        let mut edges = vec![Vec::new(); self.commits as usize];
        let changes = || self.accesses.iter().filter(|access| access.left != access.need);
        let writers: HashMap<(u64, Reply), u32> = changes().map(|access| ((access.key, access.left), access.txn)).collect();
        let mut replacing: HashMap<(u64, Reply), u32> = HashMap::new();
        for access in changes() {
            replacing.insert((access.key, access.need), access.txn);
        }
        for access in &self.accesses {
            let version = (access.key, access.need);
            match writers.get(&version) {
                Some(writer) => edges[*writer as usize].push(access.txn),
                None if access.need.is_some() => return None,
                None => {}
            }
            if let Some(by) = replacing.get(&version).filter(|by| **by != access.txn) {
                edges[access.txn as usize].push(*by);
            }
        }
        Some(edges)
    }

    /// Whether the graph has an order.
    fn has_order(&self) -> bool {
        let Some(edges) = self.edges() else { return false };
        let mut missing = vec![0u32; edges.len()];
        edges.iter().flatten().for_each(|to| missing[*to as usize] += 1);
        let mut ready: Vec<u32> = (0..self.commits).filter(|txn| missing[*txn as usize] == 0).collect();
        let mut placed = 0;
        while let Some(txn) = ready.pop() {
            placed += 1;
            for to in &edges[txn as usize] {
                missing[*to as usize] -= 1;
                if missing[*to as usize] == 0 {
                    ready.push(*to);
                }
            }
        }
        placed == edges.len()
    }

    pub fn is_serializable(&self) -> bool {
        !self.is_torn && (self.runs_in_turn() || self.has_order())
    }
}

impl Rules for Order {
    fn ask(&mut self, _caller: usize, _op: Op) -> Result<(), Rule> {
        Ok(())
    }

    fn name(&self, _caller: usize, _named: u64, _has_begun: bool) -> Result<(), Rule> {
        Ok(())
    }

    fn answer(&mut self, caller: usize, op: Op, reply: Reply) -> Result<(), Rule> {
        self.footprints[caller].answer(op, reply);
        Ok(())
    }

    fn put_back(&mut self, caller: usize, key: u64, before: Reply) {
        self.footprints[caller].put_back(key, before);
    }

    fn commit(&mut self, caller: usize) -> Result<(), Rule> {
        let footprint = &mut self.footprints[caller];
        self.is_torn |= footprint.is_torn;
        let (txn, accesses) = (self.commits, &mut self.accesses);
        accesses.extend(footprint.cells.drain().map(|(key, cell)| Access { txn, key, need: cell.need, left: cell.now }));
        self.commits += 1;
        Ok(())
    }

    fn abort(&mut self, caller: usize) {
        self.footprints[caller].clear();
    }
}
