//! The rules of replies and locks, by the locks and by the order of commits.
use crate::entry::{Op, Reply};
use crate::judge::{Rule, Rules, CALLERS};
use std::collections::HashMap;

/// By locks: a map as it is now, and the holder of each stripe.
pub struct Locks {
    map: HashMap<u64, u64>,
    holders: Vec<Option<u8>>,
    held: Vec<Vec<usize>>,
}

/// A key that a transaction asked for: what it must have before the transaction, and what it has for it now.
pub struct Cell {
    pub need: Reply,
    pub now: Reply,
}

/// The keys that a transaction asked for, and whether its replies fit no map.
#[derive(Default)]
pub struct Footprint {
    pub cells: HashMap<u64, Cell>,
    pub is_torn: bool,
}

impl Footprint {
    pub fn answer(&mut self, op: Op, reply: Reply) {
        let first = Cell {
            need: reply,
            now: reply,
        };
        let cell = self.cells.entry(op.key()).or_insert(first);
        if cell.now == reply {
            cell.now = op.leaves(reply);
        } else {
            self.is_torn = true;
        }
    }

    pub fn put_back(&mut self, key: u64, before: Reply) {
        if let Some(cell) = self.cells.get_mut(&key) {
            cell.now = before;
        }
    }

    pub fn clear(&mut self) {
        self.cells.clear();
        self.is_torn = false;
    }
}

/// By the order of commits: the map that the committed transactions leave, and each caller's footprint.
pub struct Commits {
    map: HashMap<u64, u64>,
    footprints: Vec<Footprint>,
}

/// Gives a key this value, or takes it out.
fn set(map: &mut HashMap<u64, u64>, key: u64, value: Reply) {
    match value {
        Some(value) => map.insert(key, value),
        None => map.remove(&key),
    };
}

impl Locks {
    pub fn new(stripes: u64) -> Locks {
        Locks {
            map: HashMap::new(),
            holders: vec![None; stripes as usize],
            held: vec![Vec::new(); CALLERS],
        }
    }

    fn release(&mut self, caller: usize) {
        for stripe in self.held[caller].drain(..) {
            self.holders[stripe] = None;
        }
    }
}

impl Rules for Locks {
    fn ask(&mut self, caller: usize, op: Op) -> Result<(), Rule> {
        let stripe = (op.key() % self.holders.len() as u64) as usize;
        match self.holders[stripe] {
            Some(holder) if usize::from(holder) != caller => return Err(Rule::Locks),
            Some(_) => {}
            None => {
                self.holders[stripe] = Some(caller as u8);
                self.held[caller].push(stripe);
            }
        }
        Ok(())
    }

    fn name(&self, caller: usize, named: u64, has_begun: bool) -> Result<(), Rule> {
        if named != caller as u64 && has_begun {
            Ok(())
        } else {
            Err(Rule::Locks)
        }
    }

    fn answer(&mut self, _caller: usize, op: Op, reply: Reply) -> Result<(), Rule> {
        if self.map.get(&op.key()).copied() != reply {
            return Err(Rule::Replies);
        }
        if op.changes(reply) {
            set(&mut self.map, op.key(), op.leaves(reply));
        }
        Ok(())
    }

    fn put_back(&mut self, _caller: usize, key: u64, before: Reply) {
        set(&mut self.map, key, before);
    }

    fn commit(&mut self, caller: usize) -> Result<(), Rule> {
        self.release(caller);
        Ok(())
    }

    fn abort(&mut self, caller: usize) {
        self.release(caller);
    }
}

impl Commits {
    pub fn new() -> Commits {
        Commits {
            map: HashMap::new(),
            footprints: (0..CALLERS).map(|_| Footprint::default()).collect(),
        }
    }
}

impl Rules for Commits {
    fn ask(&mut self, _caller: usize, _op: Op) -> Result<(), Rule> {
        Ok(())
    }

    fn name(&self, _caller: usize, _named: u64, _has_begun: bool) -> Result<(), Rule> {
        Ok(())
    }

    fn answer(&mut self, caller: usize, op: Op, reply: Reply) -> Result<(), Rule> {
        self.footprints[caller].answer(op, reply);
        Ok(())
    }

    fn put_back(&mut self, caller: usize, key: u64, before: Reply) {
        self.footprints[caller].put_back(key, before);
    }

    fn commit(&mut self, caller: usize) -> Result<(), Rule> {
        let footprint = &mut self.footprints[caller];
        let map = &self.map;
        let fits = |(key, cell): (&u64, &Cell)| map.get(key).copied() == cell.need;
        if footprint.is_torn || !footprint.cells.iter().all(fits) {
            return Err(Rule::Replies);
        }
        for (key, cell) in footprint.cells.drain() {
            if cell.now != cell.need {
                set(&mut self.map, key, cell.now);
            }
        }
        Ok(())
    }

    fn abort(&mut self, caller: usize) {
        self.footprints[caller].clear();
    }
}
