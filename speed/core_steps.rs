//! Writes a step file to standard output: callers that begin, ask, seek and act, save and go back, commit and abort with
//! their undoing, doublings, helpers that initialise the new buckets parent first, and sweeps. The steps follow from the
//! answers of the core in machine.rs, so that each caller does what it may: after `again` it seeks anew, after `busy` it
//! takes its changes back.
//!
//! Usage: core_steps [NAME=NUMBER]..
//!
//! - steps: their number, at most 1,000,000; fewer if the file would have more than 16,777,216 bytes
//! - callers, stripes, buckets: the limits
//! - keys: how many keys there are; with wide=1 they have up to 19 digits
//! - version: of the file; in 2 each second key is 2^63 more than the one before it, and a quarter of the puts are put_ifs,
//!   which expect what was seen last of their key, or in one of eight another value
//! - sweeps: on average one step in this number is a sweep
//! - turn: on average after this number of steps another caller takes the next one; 0: only after a transaction
//! - seed: the seed of the random numbers
#![allow(dead_code)]

mod list;
mod machine;
mod split;
mod step;
mod tally;

use machine::Core;
use split::key_at;
use std::collections::{HashMap, VecDeque};
use std::env;
use std::error::Error;
use std::fmt::Write as _;
use step::{Answer, Limits, Op, Reply, Step, around_steps};

const MAX_BYTES: usize = 16_777_216;

// ---- chance ----

/// Random numbers (xorshift64*).
struct Chance(u64);

impl Chance {
    fn next(&mut self) -> u64 {
        self.0 ^= self.0 >> 12;
        self.0 ^= self.0 << 25;
        self.0 ^= self.0 >> 27;
        self.0.wrapping_mul(0x2545_f491_4f6c_dd1d) >> 16
    }

    fn below(&mut self, bound: u64) -> u64 {
        self.next() % bound
    }

    fn once_in(&mut self, bound: u64) -> bool {
        self.below(bound) == 0
    }
}

// ---- what is asked for ----

struct Wishes {
    steps: usize,
    limits: Limits,
    keys: u64,
    wide: bool,
    sweeps: u64,
    turn: u64,
    seed: u64,
}

impl Wishes {
    fn of_words(words: impl Iterator<Item = String>) -> Result<Wishes, Box<dyn Error>> {
        let mut wishes = Wishes {
            steps: 1_000_000,
            limits: Limits {
                callers: 8,
                stripes: 4096,
                buckets: 65_536,
                half_keys: true,
            },
            keys: 100_000,
            wide: false,
            sweeps: 50,
            turn: 8,
            seed: 1,
        };
        for word in words {
            let (name, number) = word.split_once('=').ok_or("NAME=NUMBER")?;
            let number: u64 = number.parse()?;
            match name {
                "steps" => wishes.steps = number as usize,
                "callers" => wishes.limits.callers = number as u32,
                "stripes" => wishes.limits.stripes = number as u32,
                "buckets" => wishes.limits.buckets = number as u32,
                "keys" => wishes.keys = number,
                "wide" => wishes.wide = number != 0,
                "version" => wishes.limits.half_keys = number == 1,
                "sweeps" => wishes.sweeps = number,
                "turn" => wishes.turn = number,
                "seed" => wishes.seed = number,
                _ => return Err(format!("{name} is no such name").into()),
            }
        }
        Ok(wishes)
    }
}

// ---- callers ----

/// A caller, as far as it knows what it may do next.
struct Caller {
    next: Next,
    // The operation that it asked for last.
    op: Op,
    // How many changes stand, and how many stood at each savepoint.
    changes: u64,
    kept: Vec<u64>,
    // How many operations the transaction has yet.
    left: u64,
}

#[derive(Clone, Copy)]
enum Next {
    Begin,
    Choose,
    Seek,
    Act,
    // It takes changes back until this number stands.
    Undo(u64),
    UndoAt(u64),
}

impl Caller {
    fn new() -> Caller {
        Caller {
            next: Next::Begin,
            op: Op::Get(0),
            changes: 0,
            kept: Vec::new(),
            left: 0,
        }
    }

    /// The next state after a step, by its answer.
    fn see(&mut self, step: Step, answer: Answer, chance: &mut Chance) {
        self.next = match (answer, self.next) {
            (Answer::Began(_), _) => {
                self.changes = 0;
                self.kept.clear();
                self.left = 1 + chance.below(8);
                Next::Choose
            }
            (Answer::Asked, _) => Next::Seek,
            (Answer::Placed, Next::Undo(aim)) => Next::UndoAt(aim),
            (Answer::Placed, _) => Next::Act,
            (Answer::Again, Next::UndoAt(aim)) => Next::Undo(aim),
            (Answer::Again, _) => Next::Seek,
            (Answer::Done(reply), _) => {
                self.changes += u64::from(self.op.changes(reply));
                Next::Choose
            }
            (Answer::Saved(_), _) => {
                self.kept.push(self.changes);
                Next::Choose
            }
            (Answer::Leaving | Answer::Busy(_), _) => Next::Undo(match step {
                Step::Back(_, level) if level > 0 => self.kept[level as usize - 1],
                _ => 0,
            }),
            (Answer::Undone, Next::UndoAt(aim)) => {
                self.changes -= 1;
                Next::Undo(aim)
            }
            (Answer::Returned(level), _) => {
                self.kept.truncate(level as usize);
                Next::Choose
            }
            _ => Next::Begin,
        };
    }
}

// ---- the file ----

struct Writer {
    wishes: Wishes,
    chance: Chance,
    core: Core,
    callers: Vec<Caller>,
    // Whose turn it is.
    at: usize,
    // The buckets that are not initialised, parents first, and what a helper does next for the first of them.
    buckets: VecDeque<u32>,
    help: fn(u64, u64) -> Step,
    // The value seen last at each key, in version 2.
    seen: HashMap<u64, Reply>,
    text: String,
    steps: usize,
}

impl Writer {
    fn new(wishes: Wishes) -> Writer {
        let (text, _) = around_steps(&wishes.limits);
        Writer {
            chance: Chance(key_at(wishes.seed) | 1),
            core: Core::new(wishes.limits, 0),
            callers: (0..wishes.limits.callers).map(|_| Caller::new()).collect(),
            at: 0,
            buckets: VecDeque::from([1]),
            help: Step::InitSeek,
            seen: HashMap::new(),
            text,
            steps: 0,
            wishes,
        }
    }

    /// Takes a step on the core and writes it, if there is room for it.
    fn take(&mut self, step: Step) -> Option<Answer> {
        let length = self.text.len();
        let comma = if self.steps == 0 { "" } else { "," };
        write!(self.text, "{comma}{step}").ok()?;
        if self.text.len() + 2 > MAX_BYTES || self.steps == self.wishes.steps {
            self.text.truncate(length);
            return None;
        }
        self.steps += 1;
        Some(self.core.step(step))
    }

    fn key(&mut self) -> u64 {
        let position = self.chance.below(self.wishes.keys);
        let (position, high) = if self.wishes.limits.half_keys {
            (position, 0)
        } else {
            (position / 2, (position % 2) << 63)
        };
        let low = if self.wishes.wide {
            key_at(position)
        } else {
            position
        };
        low | high
    }

    fn op(&mut self) -> Op {
        let key = self.key();
        match self.chance.below(8) {
            0 if !self.wishes.limits.half_keys => self.put_if(key),
            0..4 => Op::Put(key, self.chance.below(100)),
            4..6 => Op::Take(key),
            _ => Op::Get(key),
        }
    }

    fn put_if(&mut self, key: u64) -> Op {
        let expected = if self.chance.once_in(8) {
            Some(self.chance.below(100))
        } else {
            self.seen.get(&key).copied().flatten()
        };
        Op::PutIf(key, expected, self.chance.below(100))
    }

    /// Notes what an operation leaves at its key.
    fn note(&mut self, op: Op, reply: Reply) {
        let left = match op {
            Op::Put(_, value) => Some(value),
            Op::PutIf(_, _, value) if op.changes(reply) => Some(value),
            Op::Take(_) => None,
            Op::PutIf(..) | Op::Get(_) => reply,
        };
        self.seen.insert(op.key(), left);
    }

    /// The step of the caller whose turn it is, if its transaction is open and at rest.
    fn choice(&mut self, number: u64) -> Step {
        let chosen = self.chance.below(32);
        let caller = &mut self.callers[self.at];
        let levels = caller.kept.len() as u64;
        if caller.left == 0 {
            return if chosen < 4 {
                Step::Abort(number)
            } else {
                Step::Commit(number)
            };
        }
        caller.left -= 1;
        match chosen {
            0 | 1 => Step::Save(number),
            2..6 if levels > 0 => Step::Back(number, self.chance.below(levels + 1)),
            _ => {
                let op = self.op();
                self.callers[self.at].op = op;
                Step::Ask(number, op)
            }
        }
    }

    /// A step of the caller whose turn it is.
    fn call(&mut self) -> Option<()> {
        let number = self.at as u64;
        let caller = &self.callers[self.at];
        let step = match caller.next {
            Next::Begin => Step::Begin(number),
            Next::Choose => self.choice(number),
            Next::Undo(aim) if caller.changes > aim => Step::Seek(number),
            Next::Seek => Step::Seek(number),
            Next::Act | Next::Undo(_) | Next::UndoAt(_) => Step::Act(number),
        };
        let answer = self.take(step)?;
        if let (Answer::Done(reply), false) = (answer, self.wishes.limits.half_keys) {
            self.note(self.callers[self.at].op, reply);
        }
        self.callers[self.at].see(step, answer, &mut self.chance);
        let is_over = matches!(answer, Answer::Committed(_) | Answer::Aborted);
        let turn = self.wishes.turn;
        if is_over || (turn > 0 && self.chance.once_in(turn)) {
            let by = if turn == 0 {
                1
            } else {
                self.chance.below(self.callers.len() as u64) as usize
            };
            self.at = (self.at + by) % self.callers.len();
        }
        Some(())
    }

    /// A step of the helper that initialises the first bucket that is not initialised.
    fn initialise(&mut self, bucket: u32) -> Option<()> {
        let helper = u64::from(bucket % self.wishes.limits.callers);
        let step = (self.help)(helper, u64::from(bucket));
        self.help = match self.take(step)? {
            Answer::Placed => |helper, _| Step::InitLink(helper),
            Answer::Linked | Answer::Present => |helper, _| Step::InitStore(helper),
            Answer::Again => Step::InitSeek,
            _ => {
                self.buckets.pop_front();
                Step::InitSeek
            }
        };
        Some(())
    }

    fn double(&mut self) -> Option<()> {
        let size = self.core.size();
        if let Answer::Doubled(doubled) = self.take(Step::Double(u64::from(size)))? {
            self.buckets.extend(size..doubled as u32);
        }
        Some(())
    }

    /// A step, or none if the file is full.
    fn step(&mut self) -> Option<()> {
        if self.chance.once_in(self.wishes.sweeps) {
            return self.take(Step::Sweep).map(|_| ());
        }
        let size = self.core.size();
        let is_heavy = self.core.count() > 2 * u64::from(size) && size < self.wishes.limits.buckets;
        match self.buckets.front() {
            Some(bucket) if self.chance.once_in(4) => self.initialise(*bucket),
            None if is_heavy => self.double(),
            _ if self.chance.once_in(4096) => self.double(),
            _ => self.call(),
        }
    }
}

fn main() -> Result<(), Box<dyn Error>> {
    let mut writer = Writer::new(Wishes::of_words(env::args().skip(1))?);
    while writer.step().is_some() {}
    let (_, end) = around_steps(&writer.wishes.limits);
    print!("{}{end}", writer.text);
    eprintln!(
        "{} steps, {} bytes; size {} count {}",
        writer.steps,
        writer.text.len() + end.len(),
        writer.core.size(),
        writer.core.count()
    );
    Ok(())
}
