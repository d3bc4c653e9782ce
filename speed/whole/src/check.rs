//! The judge of histories: a map as it is now, the holder of each stripe, and of each caller its
//! phase, its changes with the values before them and its savepoints.
use crate::files::History;
use crate::machine::{Entry, Event};
use crate::step::{Op, Reply};
use std::collections::HashMap;
use std::collections::hash_map::Entry as Place;

#[derive(Clone, Copy, Default)]
enum Phase {
    #[default]
    Closed,
    Open,
    Asked(Op),
    LeavingTo(usize),
    LeavingToEnd,
}

/// Whom a busy entry may name: a caller that holds the stripe, or one that has begun a transaction.
#[derive(Clone, Copy)]
enum Holder {
    Now,
    Begun,
}

#[derive(Clone, Default)]
struct Caller {
    phase: Phase,
    has_begun: bool,
    // Of each change that stands its key and the value before it.
    changes: Vec<(u64, Reply)>,
    // How many changes stood at each savepoint.
    kept: Vec<usize>,
    held: Vec<u16>,
}

/// No caller.
const FREE: u8 = u8::MAX;

struct Judge {
    holder: Holder,
    began: u64,
    committed: u64,
    map: HashMap<u64, u64>,
    holders: Vec<u8>,
    callers: Vec<Caller>,
}

enum Rule {
    Replies = 1,
    Locks = 2,
    Shape = 3,
}

impl Caller {
    /// How many changes stood at a level.
    fn standing(&self, level: usize) -> usize {
        if level == 0 { 0 } else { self.kept[level - 1] }
    }

    fn close(&mut self, holders: &mut [u8]) {
        self.phase = Phase::Closed;
        self.changes.clear();
        self.kept.clear();
        for stripe in self.held.drain(..) {
            holders[stripe as usize] = FREE;
        }
    }
}

fn holds(right: bool, rule: Rule) -> Result<(), Rule> {
    if right { Ok(()) } else { Err(rule) }
}

/// Does an operation with this reply, by one look at the map, and answers whether it was a change;
/// another reply breaks the rule, and then the map is of no use any more.
fn operate(map: &mut HashMap<u64, u64>, op: Op, reply: Reply) -> Result<bool, Rule> {
    let (before, is_change) = match op {
        Op::Put(key, value) => (map.insert(key, value), true),
        Op::Take(key) if reply.is_none() => (map.get(&key).copied(), false),
        Op::Take(key) => (map.remove(&key), true),
        Op::Get(key) => (map.get(&key).copied(), false),
        Op::PutIf(key, expected, value) => {
            let is_change = reply == expected;
            match map.entry(key) {
                Place::Occupied(mut place) if is_change => (Some(place.insert(value)), true),
                Place::Occupied(place) => (Some(*place.get()), false),
                Place::Vacant(place) => {
                    if is_change {
                        place.insert(value);
                    }
                    (None, is_change)
                }
            }
        }
    };
    holds(before == reply, Rule::Replies).map(|()| is_change)
}

impl Judge {
    /// Whether a busy entry may name this caller.
    fn may_name(&self, entry: &Entry) -> bool {
        let is_holder = match self.holder {
            Holder::Now => self.holders[self.stripe(entry.number)] == entry.holder,
            Holder::Begun => self.callers[entry.holder as usize].has_begun,
        };
        entry.holder != entry.caller && is_holder
    }

    fn undo(&mut self, caller: usize, left: usize) -> Result<(), Rule> {
        let changes = &mut self.callers[caller].changes;
        holds(changes.len() > left, Rule::Shape)?;
        match changes.pop() {
            Some((key, Some(value))) => self.map.insert(key, value),
            Some((key, None)) => self.map.remove(&key),
            None => None,
        };
        Ok(())
    }

    fn stripe(&self, key: u64) -> usize {
        (key % self.holders.len() as u64) as usize
    }

    fn judge(&mut self, entry: &Entry) -> Result<(), Rule> {
        let caller = entry.caller as usize;
        match (self.callers[caller].phase, entry.event) {
            (Phase::Closed, Event::Began) => {
                holds(entry.number == self.began + 1, Rule::Shape)?;
                self.began = entry.number;
                self.callers[caller].phase = Phase::Open;
                self.callers[caller].has_begun = true;
            }
            (Phase::Open, Event::Asked) => {
                let stripe = self.stripe(entry.number);
                let holder = self.holders[stripe];
                if holder == FREE {
                    self.holders[stripe] = entry.caller;
                    self.callers[caller].held.push(stripe as u16);
                } else {
                    holds(holder == entry.caller, Rule::Locks)?;
                }
                self.callers[caller].phase = Phase::Asked(entry.op());
            }
            (Phase::Asked(op), Event::Did | Event::DidNone) => {
                let reply = matches!(entry.event, Event::Did).then_some(entry.number);
                let is_change = operate(&mut self.map, op, reply)?;
                let seat = &mut self.callers[caller];
                if is_change {
                    seat.changes.push((op.key(), reply));
                }
                seat.phase = Phase::Open;
            }
            (Phase::Open, Event::Busy) => {
                holds(self.may_name(entry), Rule::Locks)?;
                self.callers[caller].phase = Phase::LeavingToEnd;
            }
            (Phase::Open, Event::Saved) => {
                let seat = &mut self.callers[caller];
                seat.kept.push(seat.changes.len());
            }
            (Phase::Open, Event::Leave) => {
                let levels = self.callers[caller].kept.len() as u64;
                holds(entry.number <= levels, Rule::Shape)?;
                self.callers[caller].phase = Phase::LeavingTo(entry.number as usize);
            }
            (Phase::Open | Phase::Asked(_), Event::LeaveToEnd) => {
                self.callers[caller].phase = Phase::LeavingToEnd;
            }
            (Phase::Open, Event::Committed) => {
                holds(entry.number == self.committed + 1, Rule::Shape)?;
                self.committed = entry.number;
                self.callers[caller].close(&mut self.holders);
            }
            (Phase::LeavingTo(level), Event::Undone) => {
                self.undo(caller, self.callers[caller].standing(level))?;
            }
            (Phase::LeavingToEnd, Event::Undone) => self.undo(caller, 0)?,
            (Phase::LeavingTo(level), Event::Returned) => {
                let seat = &mut self.callers[caller];
                let is_there = seat.standing(level) == seat.changes.len();
                holds(entry.number == level as u64 && is_there, Rule::Shape)?;
                seat.kept.truncate(level);
                seat.phase = Phase::Open;
            }
            (Phase::LeavingToEnd, Event::Aborted) => {
                holds(self.callers[caller].changes.is_empty(), Rule::Shape)?;
                self.callers[caller].close(&mut self.holders);
            }
            _ => return Err(Rule::Shape),
        }
        Ok(())
    }
}

/// The line of the verdict, and whether the history is legal.
pub fn verdict(file: &History) -> (String, bool) {
    let mut judge = Judge {
        holder: if file.version < 3 {
            Holder::Now
        } else {
            Holder::Begun
        },
        began: 0,
        committed: 0,
        map: HashMap::new(),
        holders: vec![FREE; file.stripes as usize],
        callers: vec![Caller::default(); 64],
    };
    for (index, entry) in file.entries.iter().enumerate() {
        if let Err(rule) = judge.judge(entry) {
            let line = format!("illegal entry {index} rule {}\n", rule as u64);
            return (line, false);
        }
    }
    let is_open = |caller: &&Caller| !matches!(caller.phase, Phase::Closed);
    let open = judge.callers.iter().filter(is_open).count();
    let line = format!("legal {} commits {open} open\n", judge.committed);
    (line, true)
}
