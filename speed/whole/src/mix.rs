//! Workers that take turns on one core, the next one drawn.
use crate::files::{Action, Scripts};
use crate::machine::Core;
use crate::split::parent;
use crate::step::{Answer, Op, Refusal, Step};

/// After this many `again` in a row a seek and its act are one turn.
const PATIENCE: u8 = 8;

/// The generator `Pcg32` (O'Neill 2014), seeded as the crate `rand_pcg` seeds it.
struct Generator {
    state: u64,
    increment: u64,
}

const MULTIPLIER: u64 = 6_364_136_223_846_793_005;

fn output(state: u64) -> u32 {
    let word = (((state >> 18) ^ state) >> 27) as u32;
    word.rotate_right((state >> 59) as u32)
}

impl Generator {
    fn new(seed: u64) -> Generator {
        let mut state = seed;
        let mut word = || {
            state = state
                .wrapping_mul(MULTIPLIER)
                .wrapping_add(11_634_580_027_462_260_723);
            u64::from(output(state))
        };
        let first = word() | word() << 32;
        let increment = (word() | word() << 32) | 1;
        let mut generator = Generator {
            state: first.wrapping_add(increment),
            increment,
        };
        generator.next();
        generator
    }

    fn next(&mut self) -> u32 {
        let before = self.state;
        self.state = before.wrapping_mul(MULTIPLIER).wrapping_add(self.increment);
        output(before)
    }
}

/// Where a worker is in the call of an action, or of its transaction's begin, commit or abort.
#[derive(Clone, Copy)]
enum Phase {
    First,
    Seek(u8),
    Act(u8),
    Double,
    InitSeek(u32, u32, u8),
    InitLink(u32, u32, u8),
    InitStore(u32, u32),
}

#[derive(Clone, Copy)]
enum Call {
    Begin,
    Do(Action),
    Commit,
    // The transaction is given up after a refusal.
    GiveUp,
}

/// How a call ended.
enum End {
    Done,
    Busy,
    Refused,
}

pub struct Worker {
    pub number: u64,
    // The script that it is at, the action, and how often the script was begun again.
    script: usize,
    action: usize,
    pub again: u64,
    call: Call,
    phase: Phase,
    // The operation found its stripe held.
    was_busy: bool,
}

/// The bucket on the way from `last` to `target`.
fn towards(last: u32, target: u32) -> u32 {
    let mut bucket = target;
    while bucket != 0 && parent(bucket) != last {
        bucket = parent(bucket);
    }
    bucket
}

impl Worker {
    pub fn new(number: u64) -> Worker {
        Worker {
            number,
            script: number as usize,
            action: 0,
            again: 0,
            call: Call::Begin,
            phase: Phase::First,
            was_busy: false,
        }
    }

    /// Whether its next step is the first of a call.
    pub fn is_at_call(&self) -> bool {
        matches!(self.phase, Phase::First)
    }

    /// The operation that its next step asks for, if it does.
    pub fn asks(&self) -> Option<Op> {
        match (self.phase, self.call) {
            (Phase::First, Call::Do(Action::Op(op))) => Some(op),
            _ => None,
        }
    }

    fn step(&self, size: u32) -> Step {
        let me = self.number;
        match self.phase {
            Phase::First => match self.call {
                Call::Begin => Step::Begin(me),
                Call::Do(Action::Op(op)) => Step::Ask(me, op),
                Call::Do(Action::Save) => Step::Save(me),
                Call::Do(Action::Back(level)) => Step::Back(me, level),
                Call::Do(Action::Help(_)) => Step::Double(u64::from(size)),
                Call::Do(Action::Abort) | Call::GiveUp => Step::Abort(me),
                Call::Commit => Step::Commit(me),
            },
            Phase::Seek(_) => Step::Seek(me),
            Phase::Act(_) => Step::Act(me),
            Phase::Double => Step::Double(u64::from(size)),
            Phase::InitSeek(bucket, _, _) => Step::InitSeek(me, u64::from(bucket)),
            Phase::InitLink(..) => Step::InitLink(me),
            Phase::InitStore(..) => Step::InitStore(me),
        }
    }

    fn heads(&mut self, last: u32, target: u32) -> Option<End> {
        if last == target {
            return Some(End::Done);
        }
        self.phase = Phase::InitSeek(towards(last, target), target, 0);
        None
    }

    fn sized(&mut self, size: u32) -> Option<End> {
        let Call::Do(Action::Help(key)) = self.call else {
            return Some(End::Refused);
        };
        self.heads(0, (key % u64::from(size)) as u32)
    }

    /// Takes the answer of the step, and says how the call ended, if it did.
    fn told(&mut self, answer: Answer, size: u32) -> Option<End> {
        match (self.phase, answer) {
            (_, Answer::Placed) => match self.phase {
                Phase::Seek(again) => self.phase = Phase::Act(again),
                Phase::InitSeek(bucket, target, again) => {
                    self.phase = Phase::InitLink(bucket, target, again);
                }
                _ => return Some(End::Refused),
            },
            (Phase::Seek(again), Answer::Refused(Refusal::NothingToSeek)) => {
                self.phase = Phase::Act(again);
            }
            (Phase::First, Answer::Asked | Answer::Leaving) => self.phase = Phase::Seek(0),
            (Phase::First, Answer::Busy(_)) => {
                self.was_busy = true;
                self.phase = Phase::Seek(0);
            }
            (Phase::Act(again), Answer::Again) => self.phase = Phase::Seek(PATIENCE.min(again + 1)),
            (_, Answer::Undone) => self.phase = Phase::Seek(0),
            (_, Answer::Moved(size) | Answer::Doubled(size)) => return self.sized(size as u32),
            (_, Answer::AtLimit | Answer::Light) => return self.sized(size),
            (Phase::InitSeek(bucket, target, _), Answer::Ready) => {
                return self.heads(bucket, target);
            }
            (Phase::InitLink(bucket, target, again), Answer::Again) => {
                self.phase = Phase::InitSeek(bucket, target, PATIENCE.min(again + 1));
            }
            (Phase::InitLink(bucket, target, _), Answer::Linked | Answer::Present) => {
                self.phase = Phase::InitStore(bucket, target);
            }
            (Phase::InitStore(bucket, target), Answer::Stored) => {
                return self.heads(bucket, target);
            }
            (_, Answer::Aborted) if self.was_busy => return Some(End::Busy),
            (_, Answer::Refused(_)) => return Some(End::Refused),
            _ => return Some(End::Done),
        }
        None
    }

    /// Goes to the next call; answers whether there is one.
    fn goes_on(&mut self, end: End, file: &Scripts) -> bool {
        let script = &file.scripts[self.script];
        self.phase = Phase::First;
        self.was_busy = false;
        let is_over = match (end, self.call) {
            (End::Busy, _) if self.again < file.tries => {
                self.again += 1;
                self.action = 0;
                self.call = Call::Begin;
                return true;
            }
            (End::Refused, Call::Do(action)) if !matches!(action, Action::Abort) => {
                self.call = Call::GiveUp;
                return true;
            }
            (End::Done, Call::Begin) => false,
            (End::Done, Call::Do(action)) if !matches!(action, Action::Abort) => {
                self.action += 1;
                false
            }
            _ => true,
        };
        if is_over {
            self.script += file.limits.callers as usize;
            self.action = 0;
            self.again = 0;
            self.call = Call::Begin;
            return self.script < file.scripts.len();
        }
        self.call = match script.get(self.action) {
            // Such a help is refused before its first step.
            Some(Action::Help(key)) if file.limits.is_bad_key(*key) => Call::GiveUp,
            Some(action) => Call::Do(*action),
            None => Call::Commit,
        };
        true
    }
}

/// Takes a step, and answers whether the worker is live after it.
fn take(core: &mut Core, worker: &mut Worker, file: &Scripts) -> (Answer, bool) {
    let size = core.size();
    let answer = core.step(worker.step(size));
    let is_live = match worker.told(answer, size) {
        Some(end) => worker.goes_on(end, file),
        None => true,
    };
    (answer, is_live)
}

/// Takes a worker's turn, of one step or two, and answers whether it is live after it.
#[inline]
pub fn turn(core: &mut Core, worker: &mut Worker, file: &Scripts) -> bool {
    let is_pair = matches!(
        worker.phase,
        Phase::Seek(PATIENCE) | Phase::InitSeek(_, _, PATIENCE)
    );
    match take(core, worker, file) {
        (Answer::Placed, _) if is_pair => take(core, worker, file).1,
        (_, is_live) => is_live,
    }
}

/// The core after all scripts.
pub fn mix(seed: u64, file: &Scripts) -> Core {
    let mut core = Core::new(file.limits, file.room());
    let mut live = file.live_workers();
    let mut generator = Generator::new(seed);
    while !live.is_empty() {
        let place = (generator.next() % live.len() as u32) as usize;
        if !turn(&mut core, &mut live[place], file) {
            live.remove(place);
        }
    }
    core
}

impl Scripts {
    /// About how many entries the history has if no script is begun again.
    pub fn room(&self) -> usize {
        self.scripts.iter().map(|script| 2 * script.len() + 3).sum()
    }

    /// The workers that have a script.
    pub fn live_workers(&self) -> Vec<Worker> {
        (0..u64::from(self.limits.callers))
            .filter(|number| (*number as usize) < self.scripts.len())
            .map(Worker::new)
            .collect()
    }
}
