//! The judge of entries that come one after another: of each caller its phase, its changes with the values before them and its
//! savepoints; and the rules that are asked of entries of right shape.
use crate::entry::{Entry, Event, Op, Reply};

/// How many callers there are.
pub const CALLERS: usize = 64;

#[derive(Clone, Copy, Default)]
enum Phase {
    #[default]
    Closed,
    Open,
    Asked(Op),
    LeavingTo(usize),
    LeavingToEnd,
}

#[derive(Clone, Default)]
struct Caller {
    phase: Phase,
    has_begun: bool,
    // Of each change that stands its key and the value before it.
    changes: Vec<(u64, Reply)>,
    // How many changes stood at each savepoint.
    kept: Vec<usize>,
}

#[derive(Clone, Copy)]
pub enum Rule {
    Replies = 1,
    Locks = 2,
    Shape = 3,
}

/// The rules that entries of right shape are tested by.
pub trait Rules {
    fn ask(&mut self, caller: usize, op: Op) -> Result<(), Rule>;

    /// A busy entry names this one, who has begun a transaction or has not.
    fn name(&self, caller: usize, named: u64, has_begun: bool) -> Result<(), Rule>;

    fn answer(&mut self, caller: usize, op: Op, reply: Reply) -> Result<(), Rule>;

    /// A change is taken back: its key has again what it had before.
    fn put_back(&mut self, caller: usize, key: u64, before: Reply);

    fn commit(&mut self, caller: usize) -> Result<(), Rule>;

    fn abort(&mut self, caller: usize);
}

pub struct Judge<R> {
    rules: R,
    began: u64,
    committed: u64,
    callers: Vec<Caller>,
    // How many entries were fed before the first bad one.
    fed: u64,
    bad: Option<Rule>,
}

impl Caller {
    /// How many changes stood at a level.
    fn standing(&self, level: usize) -> usize {
        if level == 0 {
            0
        } else {
            self.kept[level - 1]
        }
    }

    fn close(&mut self) {
        self.phase = Phase::Closed;
        self.changes.clear();
        self.kept.clear();
    }
}

impl<R: Rules> Judge<R> {
    pub fn new(rules: R) -> Judge<R> {
        Judge {
            rules,
            began: 0,
            committed: 0,
            callers: vec![Caller::default(); CALLERS],
            fed: 0,
            bad: None,
        }
    }

    fn undo(&mut self, number: usize, left: usize) -> Result<(), Rule> {
        let changes = &mut self.callers[number].changes;
        if changes.len() <= left {
            return Err(Rule::Shape);
        }
        if let Some((key, before)) = changes.pop() {
            self.rules.put_back(number, key, before);
        }
        Ok(())
    }

    fn take_in(&mut self, entry: &Entry) -> Result<(), Rule> {
        let number = entry.caller as usize;
        let caller = &mut self.callers[number];
        match (caller.phase, entry.event) {
            (Phase::Closed, Event::Began(txn)) if txn == self.began + 1 => {
                self.began = txn;
                caller.phase = Phase::Open;
                caller.has_begun = true;
            }
            (Phase::Open, Event::Asked(op)) => {
                self.rules.ask(number, op)?;
                caller.phase = Phase::Asked(op);
            }
            (Phase::Open, Event::Busy(_, named)) => {
                caller.phase = Phase::LeavingToEnd;
                let has_begun = self.callers[named as usize].has_begun;
                self.rules.name(number, named, has_begun)?;
            }
            (Phase::Open, Event::Saved) => caller.kept.push(caller.changes.len()),
            (Phase::Open, Event::Leave(Some(level))) if level <= caller.kept.len() as u64 => {
                caller.phase = Phase::LeavingTo(level as usize);
            }
            (Phase::Open | Phase::Asked(_), Event::Leave(None)) => {
                caller.phase = Phase::LeavingToEnd;
            }
            (Phase::Open, Event::Committed(place)) if place == self.committed + 1 => {
                self.rules.commit(number)?;
                self.committed = place;
                caller.close();
            }
            (Phase::Asked(op), Event::Did(reply)) => {
                self.rules.answer(number, op, reply)?;
                if op.changes(reply) {
                    caller.changes.push((op.key(), reply));
                }
                caller.phase = Phase::Open;
            }
            (Phase::LeavingTo(level), Event::Undone) => {
                let left = caller.standing(level);
                self.undo(number, left)?;
            }
            (Phase::LeavingToEnd, Event::Undone) => self.undo(number, 0)?,
            (Phase::LeavingTo(level), Event::Returned(reached))
                if reached == level as u64 && caller.standing(level) == caller.changes.len() =>
            {
                caller.kept.truncate(level);
                caller.phase = Phase::Open;
            }
            (Phase::LeavingToEnd, Event::Aborted) if caller.changes.is_empty() => {
                self.rules.abort(number);
                caller.close();
            }
            _ => return Err(Rule::Shape),
        }
        Ok(())
    }

    /// Feeds it the next entry. The answer is whether all are good so far.
    pub fn feed(&mut self, entry: &Entry) -> bool {
        match self.take_in(entry) {
            Ok(()) => self.fed += 1,
            Err(rule) => self.bad = Some(rule),
        }
        self.bad.is_none()
    }

    pub fn rules(&self) -> &R {
        &self.rules
    }

    /// How many commits there are, and how many callers are in a transaction.
    pub fn counts(&self) -> String {
        let is_open = |caller: &&Caller| !matches!(caller.phase, Phase::Closed);
        let open = self.callers.iter().filter(is_open).count();
        format!("{} commits {open} open", self.committed)
    }

    /// The line of the verdict, and whether the history is legal.
    pub fn verdict(&self) -> (String, bool) {
        if let Some(rule) = self.bad {
            let rule = rule as u64;
            return (format!("illegal entry {} rule {rule}", self.fed), false);
        }
        (format!("legal {}", self.counts()), true)
    }
}
