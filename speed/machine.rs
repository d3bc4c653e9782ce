//! The core in plain Rust, as the proved one is built: the table over the list of nodes, the locks of the stripes, and for
//! each caller its stage, its cursor and its undo log.
use crate::list::{
    Cursor, Kind, NONE, NodeList, Unfilled, link_at, look, mark_at, marks_begin, seek, swap_at,
    sweep_from,
};
use crate::split::{SortKey, bucket_at, bucket_of, parent};
use crate::step::{Answer, Limits, Op, Refusal, Reply, Step};

// ---- the table ----

/// An operation with the place that it may need.
#[derive(Clone, Copy)]
struct Plan {
    op: Op,
    spare: Unfilled,
}

/// The job that takes a change back.
#[derive(Clone, Copy)]
enum Job {
    Unput(u64),
    Restore(u64, u64),
    Relink(u64, u64, Unfilled),
}

const _: () = assert!(size_of::<Job>() == 24);

#[derive(Clone, Copy)]
enum Helper {
    Idle,
    Seeking(u32, Cursor),
    Holding(u32, u32),
}

pub struct Table {
    list: NodeList,
    size: u32,
    dummies: Vec<u32>,
    helpers: Vec<Helper>,
}

impl Plan {
    fn owed(&self) -> usize {
        match self.op {
            Op::Put(..) | Op::Take(..) | Op::PutIf(..) => 2,
            Op::Get(_) => 1,
        }
    }
}

impl Job {
    fn key(&self) -> u64 {
        let (Job::Unput(key) | Job::Restore(key, _) | Job::Relink(key, _, _)) = self;
        *key
    }
}

impl Table {
    /// A table of at most `max` buckets, with room for `room` nodes.
    pub fn new(max: u32, helpers: u32, room: usize) -> Table {
        let list = NodeList::new(0, room);
        let mut dummies = vec![NONE; max as usize];
        dummies[0] = list.head;
        Table {
            list,
            size: 2,
            dummies,
            helpers: vec![Helper::Idle; helpers as usize],
        }
    }

    /// Does an operation with no other step between, and gives back what its undoing would take.
    pub fn apply(&mut self, op: Op) -> Result<Reply, Refusal> {
        let plan = self.prepare(op)?;
        let cursor = self.place(op.key());
        let Some((reply, job)) = self.act(&plan, &cursor) else {
            unreachable!()
        };
        if let Some(job) = job {
            self.discard(job);
        }
        Ok(reply)
    }

    fn prepare(&mut self, op: Op) -> Result<Plan, Refusal> {
        let spare = match op {
            Op::Get(_) => Unfilled(NONE),
            _ => self.spare()?,
        };
        Ok(Plan { op, spare })
    }

    fn spare(&mut self) -> Result<Unfilled, Refusal> {
        self.list.spare().ok_or(Refusal::StampsUsedUp)
    }

    fn nearest(&self, bucket: u32) -> u32 {
        let mut at = bucket;
        loop {
            let dummy = self.dummies[at as usize];
            if dummy != NONE {
                return dummy;
            }
            at = parent(at);
        }
    }

    fn place(&mut self, key: u64) -> Cursor {
        let from = self.nearest(bucket_of(key, self.size));
        seek(&mut self.list, from, SortKey::regular(key))
    }

    fn link_key(&mut self, pred: u32, key: u64, value: u64, spare: Unfilled) {
        let spare = spare.fill(SortKey::regular(key), Kind::Regular, value);
        link_at(&mut self.list, pred, spare);
    }

    /// Puts a value where the key's node is, or belongs behind `pred`, and gives what takes that
    /// back.
    fn put(&mut self, pred: u32, there: Option<u32>, key: u64, value: u64, spare: Unfilled) -> Job {
        match there {
            None => {
                self.link_key(pred, key, value, spare);
                Job::Unput(key)
            }
            Some(place) => {
                self.list.give_back(spare);
                Job::Restore(key, swap_at(&mut self.list, place, value))
            }
        }
    }

    /// Does an operation at the cursor, if it fits.
    fn act(&mut self, plan: &Plan, cursor: &Cursor) -> Option<(Reply, Option<Job>)> {
        let there = look(&self.list, cursor).ok()?;
        let before = there.map(|place| self.list.node(place).value);
        let (pred, spare) = (cursor.pred(), plan.spare);
        let job = match (plan.op, there) {
            (Op::Put(key, value), _) => Some(self.put(pred, there, key, value, spare)),
            (Op::PutIf(key, expected, value), _) if before == expected => {
                Some(self.put(pred, there, key, value, spare))
            }
            (Op::Take(key), Some(place)) => {
                Some(Job::Relink(key, mark_at(&mut self.list, place), spare))
            }
            (Op::PutIf(..) | Op::Take(_), _) => {
                self.list.give_back(spare);
                None
            }
            (Op::Get(_), _) => None,
        };
        Some((before, job))
    }

    fn withdraw(&mut self, plan: &Plan) {
        if !matches!(plan.op, Op::Get(_)) {
            self.list.give_back(plan.spare);
        }
    }

    /// Takes a change back at the cursor, and answers whether it fits.
    fn undo(&mut self, job: Job, cursor: &Cursor) -> bool {
        let Ok(there) = look(&self.list, cursor) else {
            return false;
        };
        match (job, there) {
            (Job::Unput(_), Some(place)) => {
                mark_at(&mut self.list, place);
            }
            (Job::Restore(_, old), Some(place)) => {
                swap_at(&mut self.list, place, old);
            }
            (Job::Relink(key, old, spare), _) => self.link_key(cursor.pred(), key, old, spare),
            (Job::Unput(_) | Job::Restore(..), None) => unreachable!(),
        }
        true
    }

    fn discard(&mut self, job: Job) {
        if let Job::Relink(_, _, spare) = job {
            self.list.give_back(spare);
        }
    }

    fn helper(&mut self, helper: u64) -> Result<&mut Helper, Refusal> {
        self.helpers
            .get_mut(helper as usize)
            .ok_or(Refusal::NoSuchHelper)
    }

    pub fn init_seek(&mut self, helper: u64, bucket: u64) -> Result<Answer, Refusal> {
        let size = u64::from(self.size);
        let seat = self
            .helpers
            .get_mut(helper as usize)
            .ok_or(Refusal::NoSuchHelper)?;
        if bucket >= size {
            return Err(Refusal::NoSuchBucket);
        }
        let bucket = bucket as u32;
        if self.dummies[bucket as usize] != NONE {
            *seat = Helper::Idle;
            return Ok(Answer::Ready);
        }
        let from = self.dummies[parent(bucket) as usize];
        if from == NONE {
            return Err(Refusal::ParentMissing);
        }
        let cursor = seek(&mut self.list, from, SortKey::dummy(bucket));
        *seat = Helper::Seeking(bucket, cursor);
        Ok(Answer::Placed)
    }

    pub fn init_link(&mut self, helper: u64) -> Result<Answer, Refusal> {
        let Helper::Seeking(bucket, cursor) = *self.helper(helper)? else {
            return Err(Refusal::HelperOutOfOrder);
        };
        let (now, answer) = match look(&self.list, &cursor) {
            Err(_) => (Helper::Idle, Answer::Again),
            Ok(Some(place)) => (Helper::Holding(bucket, place), Answer::Present),
            Ok(None) => {
                let spare = self.spare()?;
                let spare = spare.fill(SortKey::dummy(bucket), Kind::Dummy, 0);
                let place = link_at(&mut self.list, cursor.pred(), spare);
                (Helper::Holding(bucket, place), Answer::Linked)
            }
        };
        *self.helper(helper)? = now;
        Ok(answer)
    }

    pub fn init_store(&mut self, helper: u64) -> Result<Answer, Refusal> {
        let Helper::Holding(bucket, place) = *self.helper(helper)? else {
            return Err(Refusal::HelperOutOfOrder);
        };
        self.dummies[bucket as usize] = place;
        *self.helper(helper)? = Helper::Idle;
        Ok(Answer::Stored)
    }

    pub fn size(&self) -> u32 {
        self.size
    }

    pub fn double(&mut self, seen: u64) -> Answer {
        if u64::from(self.size) != seen {
            Answer::Moved(u64::from(self.size))
        } else if self.size as usize == self.dummies.len() {
            Answer::AtLimit
        } else if self.list.count <= 2 * u64::from(self.size) {
            Answer::Light
        } else {
            self.size *= 2;
            Answer::Doubled(u64::from(self.size))
        }
    }

    /// Hands out each pair, in the order of the list.
    fn each_pair(&self, mut take: impl FnMut(u64, u64)) {
        let mut place = self.list.node(self.list.head).next();
        while place != NONE {
            let node = self.list.node(place);
            if node.kind() == Kind::Regular && !node.is_marked() {
                take(node.key(), node.value);
            }
            place = node.next();
        }
    }
}

// ---- the locks of the stripes ----

/// No caller, no stripe.
const FREE: u8 = u8::MAX;
const NO_STRIPE: u16 = u16::MAX;

struct KeyLocks {
    // The caller that holds the stripe.
    holders: Vec<u8>,
    // Of a stripe that is held: the one that its holder took before it.
    older: Vec<u16>,
    // The stripe that the caller took last.
    newest: [u16; 64],
}

impl KeyLocks {
    fn new(stripes: u32) -> KeyLocks {
        KeyLocks {
            holders: vec![FREE; stripes as usize],
            older: vec![NO_STRIPE; stripes as usize],
            newest: [NO_STRIPE; 64],
        }
    }

    /// Locks the stripe, or names the other caller that holds it.
    fn lock(&mut self, caller: u8, stripe: usize) -> Result<(), u8> {
        let holder = self.holders[stripe];
        if holder == caller {
            return Ok(());
        }
        if holder != FREE {
            return Err(holder);
        }
        self.holders[stripe] = caller;
        self.older[stripe] = self.newest[caller as usize];
        self.newest[caller as usize] = stripe as u16;
        Ok(())
    }

    fn release_all(&mut self, caller: u8) {
        let mut stripe = self.newest[caller as usize];
        while stripe != NO_STRIPE {
            self.holders[stripe as usize] = FREE;
            stripe = self.older[stripe as usize];
        }
        self.newest[caller as usize] = NO_STRIPE;
    }
}

// ---- the callers ----

enum Stage {
    Closed,
    Open,
    Asked(Plan),
    LeavingTo(usize),
    LeavingToEnd,
}

struct Session {
    stage: Stage,
    cursor: Option<Cursor>,
    jobs: Vec<Job>,
    // How many jobs there were at each savepoint.
    kept: Vec<usize>,
}

impl Session {
    fn new() -> Session {
        Session {
            stage: Stage::Closed,
            cursor: None,
            jobs: Vec::new(),
            kept: Vec::new(),
        }
    }

    /// The newest job to take back, if there is one.
    fn due(&self) -> Option<Job> {
        let staying = match self.stage {
            Stage::LeavingTo(0) | Stage::LeavingToEnd => 0,
            Stage::LeavingTo(level) => self.kept[level - 1],
            _ => return None,
        };
        self.jobs[staying..].last().copied()
    }

    /// How many entries it may still add without a new reservation.
    fn owed(&self) -> usize {
        let changes = self.jobs.len();
        match &self.stage {
            Stage::Closed => 0,
            Stage::Open => 2 + changes,
            Stage::Asked(plan) => 2 + changes + plan.owed(),
            Stage::LeavingTo(_) => 3 + changes,
            Stage::LeavingToEnd => 1 + changes,
        }
    }

    /// Refuses unless the transaction is open and nothing is asked.
    fn at_rest(&self) -> Result<(), Refusal> {
        match self.stage {
            Stage::Closed => Err(Refusal::NotOpen),
            Stage::LeavingTo(_) | Stage::LeavingToEnd => Err(Refusal::Leaving),
            Stage::Asked(_) => Err(Refusal::OperationUnfinished),
            Stage::Open => Ok(()),
        }
    }
}

// ---- the history ----

#[derive(Clone, Copy, PartialEq)]
pub enum Event {
    Began,
    Asked,
    Did,
    DidNone,
    Saved,
    Leave,
    LeaveToEnd,
    Undone,
    Returned,
    Committed,
    Busy,
    Aborted,
}

#[derive(Clone, Copy, PartialEq)]
pub enum OpKind {
    Put,
    Take,
    Get,
    PutIf,
    PutIfNone,
}

/// One line of the history: what happened, and to an operation with its key, its value and what it expects. The number is the key
/// of an operation, or the one other number that the entry has.
#[derive(Clone, Copy, PartialEq)]
pub struct Entry {
    pub event: Event,
    pub kind: OpKind,
    pub caller: u8,
    pub holder: u8,
    pub number: u64,
    pub value: u64,
    pub expected: u64,
}

const _: () = assert!(size_of::<Entry>() == 32);

impl Entry {
    pub fn of(event: Event, caller: u8, number: u64) -> Entry {
        Entry {
            event,
            kind: OpKind::Get,
            caller,
            holder: 0,
            number,
            value: 0,
            expected: 0,
        }
    }

    pub fn with_op(event: Event, caller: u8, op: Op, holder: u8) -> Entry {
        let (kind, number, value, expected) = OpKind::parts(op);
        Entry {
            event,
            kind,
            caller,
            holder,
            number,
            value,
            expected,
        }
    }

    pub fn did(caller: u8, reply: Reply) -> Entry {
        match reply {
            Some(value) => Entry::of(Event::Did, caller, value),
            None => Entry::of(Event::DidNone, caller, 0),
        }
    }

    pub fn op(&self) -> Op {
        self.kind.op(self.number, self.value, self.expected)
    }
}

impl OpKind {
    /// The kind of an operation, its key, its value and what it expects.
    pub fn parts(op: Op) -> (OpKind, u64, u64, u64) {
        match op {
            Op::Put(key, value) => (OpKind::Put, key, value, 0),
            Op::Take(key) => (OpKind::Take, key, 0, 0),
            Op::Get(key) => (OpKind::Get, key, 0, 0),
            Op::PutIf(key, Some(expected), value) => (OpKind::PutIf, key, value, expected),
            Op::PutIf(key, None, value) => (OpKind::PutIfNone, key, value, 0),
        }
    }

    /// The operation of these parts.
    pub fn op(self, key: u64, value: u64, expected: u64) -> Op {
        match self {
            OpKind::Put => Op::Put(key, value),
            OpKind::Take => Op::Take(key),
            OpKind::Get => Op::Get(key),
            OpKind::PutIf => Op::PutIf(key, Some(expected), value),
            OpKind::PutIfNone => Op::PutIf(key, None, value),
        }
    }
}

// ---- the core ----

pub struct Core {
    limits: Limits,
    history: Vec<Entry>,
    began: u64,
    committed: u64,
    // How many entries all callers may still add without a new reservation.
    owed: usize,
    table: Table,
    sessions: Vec<Session>,
    locks: KeyLocks,
}

/// The caller's side, or a refusal.
fn seat(sessions: &mut [Session], caller: u64) -> Result<&mut Session, Refusal> {
    sessions
        .get_mut(caller as usize)
        .ok_or(Refusal::NoSuchCaller)
}

/// Makes room for this many entries.
fn reserve(history: &mut Vec<Entry>, entries: usize) -> Result<(), Refusal> {
    history.try_reserve(entries).map_err(|_| Refusal::NoMemory)
}

impl Core {
    /// A core with room for this many entries and nodes. Unused room costs only addresses.
    pub fn new(limits: Limits, room: usize) -> Core {
        let Limits {
            callers,
            stripes,
            buckets,
            ..
        } = limits;
        Core {
            limits,
            history: Vec::with_capacity(room),
            began: 0,
            committed: 0,
            owed: 0,
            table: Table::new(buckets, callers, room),
            sessions: (0..callers).map(|_| Session::new()).collect(),
            locks: KeyLocks::new(stripes),
        }
    }

    #[inline]
    pub fn step(&mut self, step: Step) -> Answer {
        let answer = match step {
            Step::Begin(caller) => self.begin(caller),
            Step::Ask(caller, op) => self.ask(caller, op),
            Step::Seek(caller) => self.seek(caller),
            Step::Act(caller) => self.act(caller),
            Step::Save(caller) => self.save(caller),
            Step::Back(caller, level) => self.back(caller, level),
            Step::Commit(caller) => self.commit(caller),
            Step::Abort(caller) => self.abort(caller),
            Step::Sweep => Ok(self.sweep()),
            Step::InitSeek(helper, bucket) => self.table.init_seek(helper, bucket),
            Step::InitLink(helper) => self.table.init_link(helper),
            Step::InitStore(helper) => self.table.init_store(helper),
            Step::Double(seen) => Ok(self.table.double(seen)),
        };
        answer.unwrap_or_else(Answer::Refused)
    }

    // So that a profiler sees it.
    #[inline(never)]
    pub fn run(&mut self, steps: &[Step]) -> Vec<Answer> {
        steps.iter().map(|step| self.step(*step)).collect()
    }

    pub fn history(&self) -> &[Entry] {
        &self.history
    }

    pub fn into_history(self) -> Vec<Entry> {
        self.history
    }

    pub fn size(&self) -> u32 {
        self.table.size
    }

    pub fn count(&self) -> u64 {
        self.table.list.count
    }

    /// Hands out each pair of the map, in the order of the list.
    pub fn each_pair(&self, take: impl FnMut(u64, u64)) {
        self.table.each_pair(take);
    }

    fn begin(&mut self, caller: u64) -> Result<Answer, Refusal> {
        let session = seat(&mut self.sessions, caller)?;
        match session.stage {
            Stage::Closed => {}
            Stage::LeavingTo(_) | Stage::LeavingToEnd => return Err(Refusal::Leaving),
            Stage::Open | Stage::Asked(_) => return Err(Refusal::AlreadyOpen),
        }
        reserve(&mut self.history, self.owed + 3)?;
        session.stage = Stage::Open;
        self.owed += 2;
        self.began += 1;
        let entry = Entry::of(Event::Began, caller as u8, self.began);
        self.history.push(entry);
        Ok(Answer::Began(self.began))
    }

    fn ask(&mut self, caller: u64, op: Op) -> Result<Answer, Refusal> {
        let session = seat(&mut self.sessions, caller)?;
        session.at_rest()?;
        if self.limits.is_bad_key(op.key()) {
            return Err(Refusal::BadKey);
        }
        reserve(&mut self.history, self.owed + 3)?;
        session.jobs.try_reserve(1).map_err(|_| Refusal::NoMemory)?;
        let plan = self.table.prepare(op)?;
        let stripe = op.key() % u64::from(self.limits.stripes);
        match self.locks.lock(caller as u8, stripe as usize) {
            Ok(()) => {
                self.owed += plan.owed();
                session.stage = Stage::Asked(plan);
                self.history
                    .push(Entry::with_op(Event::Asked, caller as u8, op, 0));
                Ok(Answer::Asked)
            }
            Err(holder) => {
                self.table.withdraw(&plan);
                self.owed -= 1;
                session.stage = Stage::LeavingToEnd;
                self.history
                    .push(Entry::with_op(Event::Busy, caller as u8, op, holder));
                Ok(Answer::Busy(u64::from(holder)))
            }
        }
    }

    fn seek(&mut self, caller: u64) -> Result<Answer, Refusal> {
        let session = seat(&mut self.sessions, caller)?;
        let key = match &session.stage {
            Stage::Closed => return Err(Refusal::NotOpen),
            Stage::Asked(plan) => plan.op.key(),
            _ => session.due().ok_or(Refusal::NothingToSeek)?.key(),
        };
        session.cursor = Some(self.table.place(key));
        Ok(Answer::Placed)
    }

    fn act(&mut self, caller: u64) -> Result<Answer, Refusal> {
        let session = seat(&mut self.sessions, caller)?;
        match &session.stage {
            Stage::Closed => Err(Refusal::NotOpen),
            Stage::Open => Err(Refusal::NothingToSeek),
            Stage::Asked(plan) => {
                let cursor = session.cursor.take().ok_or(Refusal::Unplaced)?;
                let Some((reply, job)) = self.table.act(plan, &cursor) else {
                    return Ok(Answer::Again);
                };
                self.owed = self.owed - plan.owed() + usize::from(job.is_some());
                session.jobs.extend(job);
                session.stage = Stage::Open;
                self.history.push(Entry::did(caller as u8, reply));
                Ok(Answer::Done(reply))
            }
            Stage::LeavingTo(_) | Stage::LeavingToEnd => match session.due() {
                Some(job) => {
                    let cursor = session.cursor.take().ok_or(Refusal::Unplaced)?;
                    if !self.table.undo(job, &cursor) {
                        return Ok(Answer::Again);
                    }
                    session.jobs.pop();
                    self.owed -= 1;
                    self.history.push(Entry::of(Event::Undone, caller as u8, 0));
                    Ok(Answer::Undone)
                }
                None => Ok(self.arrive(caller as u8)),
            },
        }
    }

    /// Ends the taking back, if no change above the level is left.
    fn arrive(&mut self, caller: u8) -> Answer {
        let session = &mut self.sessions[caller as usize];
        self.owed -= 1;
        if let Stage::LeavingTo(level) = session.stage {
            session.kept.truncate(level);
            session.stage = Stage::Open;
            self.history
                .push(Entry::of(Event::Returned, caller, level as u64));
            return Answer::Returned(level as u64);
        }
        session.kept.clear();
        session.stage = Stage::Closed;
        self.locks.release_all(caller);
        self.history.push(Entry::of(Event::Aborted, caller, 0));
        Answer::Aborted
    }

    fn save(&mut self, caller: u64) -> Result<Answer, Refusal> {
        let session = seat(&mut self.sessions, caller)?;
        session.at_rest()?;
        reserve(&mut self.history, self.owed + 1)?;
        session.kept.push(session.jobs.len());
        self.history.push(Entry::of(Event::Saved, caller as u8, 0));
        Ok(Answer::Saved(session.kept.len() as u64))
    }

    fn back(&mut self, caller: u64, level: u64) -> Result<Answer, Refusal> {
        let session = seat(&mut self.sessions, caller)?;
        session.at_rest()?;
        if level > session.kept.len() as u64 {
            return Err(Refusal::NoSuchLevel);
        }
        reserve(&mut self.history, self.owed + 2)?;
        session.stage = Stage::LeavingTo(level as usize);
        self.owed += 1;
        self.history
            .push(Entry::of(Event::Leave, caller as u8, level));
        Ok(Answer::Leaving)
    }

    fn commit(&mut self, caller: u64) -> Result<Answer, Refusal> {
        let session = seat(&mut self.sessions, caller)?;
        session.at_rest()?;
        self.owed -= session.owed();
        while let Some(job) = session.jobs.pop() {
            self.table.discard(job);
        }
        session.kept.clear();
        session.stage = Stage::Closed;
        self.locks.release_all(caller as u8);
        self.committed += 1;
        let entry = Entry::of(Event::Committed, caller as u8, self.committed);
        self.history.push(entry);
        Ok(Answer::Committed(self.committed))
    }

    fn abort(&mut self, caller: u64) -> Result<Answer, Refusal> {
        let session = seat(&mut self.sessions, caller)?;
        match session.stage {
            Stage::Closed => return Err(Refusal::NotOpen),
            Stage::LeavingTo(_) | Stage::LeavingToEnd => return Err(Refusal::Leaving),
            Stage::Open | Stage::Asked(_) => {}
        }
        let before = session.owed();
        session.cursor = None;
        if let Stage::Asked(plan) = &session.stage {
            self.table.withdraw(plan);
        }
        session.stage = Stage::LeavingToEnd;
        self.owed = self.owed - before + session.owed();
        self.history
            .push(Entry::of(Event::LeaveToEnd, caller as u8, 0));
        Ok(Answer::Leaving)
    }

    /// Unlinks the first marked node, which is sought from the nearest dummy before the region in
    /// which it is.
    fn sweep(&mut self) -> Answer {
        let table = &mut self.table;
        let from = match marks_begin(&table.list) {
            Some(word) => table.nearest(bucket_at(word, table.size)),
            None => return Answer::Clean,
        };
        sweep_from(&mut table.list, from);
        Answer::Swept
    }
}
