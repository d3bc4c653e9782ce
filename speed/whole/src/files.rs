//! The three kinds of file, each read into its own types, 32 bytes a piece. What is out of range in a piece is noted as it is read.
use crate::machine::{Entry, Event, OpKind};
use crate::step::{Limits, Op, Step};
use serde::Deserialize;
use serde::de::{Deserializer, Error, SeqAccess, Visitor};
use std::error;
use std::fmt;
use std::marker::PhantomData;

#[derive(Deserialize)]
struct StepFile {
    version: u64,
    callers: u32,
    stripes: u32,
    buckets: u32,
    steps: Pieces<PackedStep>,
}

#[derive(Deserialize)]
struct HistoryFile {
    version: u64,
    stripes: u32,
    entries: Pieces<Entry>,
}

#[derive(Deserialize)]
struct ScriptFile {
    version: u64,
    workers: u32,
    stripes: u32,
    buckets: u32,
    tries: u64,
    scripts: Vec<Pieces<Action>>,
}

pub struct Steps {
    pub version: u64,
    pub limits: Limits,
    pub steps: Vec<PackedStep>,
}

pub struct History {
    pub version: u64,
    pub stripes: u32,
    pub entries: Vec<Entry>,
}

pub struct Scripts {
    pub version: u64,
    pub limits: Limits,
    pub tries: u64,
    pub scripts: Vec<Vec<Action>>,
}

/// An action that a script asks of its worker.
#[derive(Clone, Copy)]
pub enum Action {
    Op(Op),
    Save,
    Back(u64),
    Help(u64),
    Abort,
}

const _: () = assert!(size_of::<Action>() == 32);

#[derive(Clone, Copy)]
enum StepKind {
    Begin,
    Ask,
    Seek,
    Act,
    Save,
    Back,
    Commit,
    Abort,
    Sweep,
    InitSeek,
    InitLink,
    InitStore,
    Double,
}

/// A step, in 32 bytes: its number is the key of an operation, a level, a bucket or a size.
#[derive(Clone, Copy)]
pub struct PackedStep {
    kind: StepKind,
    op: OpKind,
    caller: u8,
    number: u64,
    value: u64,
    expected: u64,
}

const _: () = assert!(size_of::<PackedStep>() == 32);

type Refused = Box<dyn error::Error>;

/// No caller: no file has this many.
const NO_CALLER: u8 = u8::MAX;

/// The pieces of a file or of a script, whether one is a `put_if`, and the largest number of a caller.
struct Pieces<T> {
    list: Vec<T>,
    has_put_if: bool,
    last_caller: u8,
}

/// The reader of a kind of pieces, and the notes on each.
trait Piece: Sized {
    fn read<'de, A: SeqAccess<'de>>(elements: Elements<A>, name: &str) -> Result<Self, A::Error>;

    fn is_put_if(&self) -> bool;

    fn last_caller(&self) -> u8;
}

/// Refuses a number that is out of range.
fn in_range(are: bool) -> Result<(), Refused> {
    if are { Ok(()) } else { Err("a number out of range".into()) }
}

/// Refuses operations that a file of this version has not.
fn are_of(version: u64, has_put_if: bool) -> Result<(), Refused> {
    if version == 1 && has_put_if {
        return Err("an operation of a later version".into());
    }
    Ok(())
}

pub fn read_steps(text: &str) -> Result<Steps, Refused> {
    let file: StepFile = serde_json::from_str(text)?;
    are_of(file.version, file.steps.has_put_if)?;
    let limits = Limits::new(file.version, file.callers, file.stripes, file.buckets);
    let steps = file.steps.list;
    in_range(steps.len() <= 1_000_000)?;
    Ok(Steps {
        version: file.version,
        limits: limits.ok_or("a number out of range")?,
        steps,
    })
}

pub fn read_scripts(text: &str) -> Result<Scripts, Refused> {
    let file: ScriptFile = serde_json::from_str(text)?;
    are_of(file.version, file.scripts.iter().any(|script| script.has_put_if))?;
    let limits = Limits::new(file.version, file.workers, file.stripes, file.buckets);
    in_range(file.scripts.len() <= 10_000 && file.tries <= 1000)?;
    in_range(file.scripts.iter().all(|script| script.list.len() <= 10_000))?;
    Ok(Scripts {
        version: file.version,
        limits: limits.ok_or("a number out of range")?,
        tries: file.tries,
        scripts: file.scripts.into_iter().map(|script| script.list).collect(),
    })
}

pub fn read_history(text: &str) -> Result<History, Refused> {
    let file: HistoryFile = serde_json::from_str(text)?;
    are_of(file.version, file.entries.has_put_if)?;
    in_range((1..=3).contains(&file.version) && (1..=4096).contains(&file.stripes))?;
    in_range(file.entries.last_caller < 64 && file.entries.list.len() <= 1_000_000)?;
    Ok(History {
        version: file.version,
        stripes: file.stripes,
        entries: file.entries.list,
    })
}

/// The elements of one array.
struct Elements<A>(A);

impl<'de, A: SeqAccess<'de>> Elements<A> {
    fn next<T: Deserialize<'de>>(&mut self) -> Result<T, A::Error> {
        let element = self.0.next_element()?;
        element.ok_or_else(|| Error::custom("an element is missing"))
    }

    fn caller(&mut self) -> Result<u8, A::Error> {
        let number: u64 = self.next()?;
        Ok(number.min(u64::from(NO_CALLER)) as u8)
    }

    /// The operation with the next name.
    fn op(&mut self) -> Result<Op, A::Error> {
        let name = self.next::<&str>()?;
        self.op_named(name)
    }

    fn op_named(&mut self, name: &str) -> Result<Op, A::Error> {
        Ok(match name {
            "put" => Op::Put(self.next()?, self.next()?),
            "take" => Op::Take(self.next()?),
            "get" => Op::Get(self.next()?),
            "put_if" => Op::PutIf(self.next()?, self.next()?, self.next()?),
            _ => return Err(Error::custom("no such word")),
        })
    }

    /// The piece, if no element is left.
    fn end<T>(mut self, piece: T) -> Result<T, A::Error> {
        match self.0.next_element::<serde::de::IgnoredAny>()? {
            None => Ok(piece),
            Some(_) => Err(Error::custom("an element too many")),
        }
    }
}

/// One piece, as a separate value for serde.
struct One<T>(T);

struct OneVisitor<T>(PhantomData<T>);

impl<'de, T: Piece> Visitor<'de> for OneVisitor<T> {
    type Value = One<T>;

    fn expecting(&self, f: &mut fmt::Formatter) -> fmt::Result {
        f.write_str("an array")
    }

    fn visit_seq<A: SeqAccess<'de>>(self, seq: A) -> Result<One<T>, A::Error> {
        let mut elements = Elements(seq);
        let name = elements.next::<&str>()?;
        Ok(One(T::read(elements, name)?))
    }
}

impl<'de, T: Piece> Deserialize<'de> for One<T> {
    fn deserialize<D: Deserializer<'de>>(deserializer: D) -> Result<Self, D::Error> {
        deserializer.deserialize_seq(OneVisitor(PhantomData))
    }
}

struct PiecesVisitor<T>(PhantomData<T>);

impl<'de, T: Piece> Visitor<'de> for PiecesVisitor<T> {
    type Value = Pieces<T>;

    fn expecting(&self, f: &mut fmt::Formatter) -> fmt::Result {
        f.write_str("an array of arrays")
    }

    fn visit_seq<A: SeqAccess<'de>>(self, mut seq: A) -> Result<Pieces<T>, A::Error> {
        let mut pieces = Pieces {
            list: Vec::new(),
            has_put_if: false,
            last_caller: 0,
        };
        while let Some(One(piece)) = seq.next_element::<One<T>>()? {
            pieces.has_put_if |= piece.is_put_if();
            pieces.last_caller = pieces.last_caller.max(piece.last_caller());
            pieces.list.push(piece);
        }
        Ok(pieces)
    }
}

impl<'de, T: Piece> Deserialize<'de> for Pieces<T> {
    fn deserialize<D: Deserializer<'de>>(deserializer: D) -> Result<Self, D::Error> {
        deserializer.deserialize_seq(PiecesVisitor(PhantomData))
    }
}

impl PackedStep {
    fn of(kind: StepKind, caller: u8, number: u64) -> PackedStep {
        PackedStep {
            kind,
            op: OpKind::Get,
            caller,
            number,
            value: 0,
            expected: 0,
        }
    }

    /// The step that it is.
    #[inline(always)]
    pub fn step(&self) -> Step {
        let (caller, number) = (u64::from(self.caller), self.number);
        match self.kind {
            StepKind::Begin => Step::Begin(caller),
            StepKind::Ask => Step::Ask(caller, self.op.op(number, self.value, self.expected)),
            StepKind::Seek => Step::Seek(caller),
            StepKind::Act => Step::Act(caller),
            StepKind::Save => Step::Save(caller),
            StepKind::Back => Step::Back(caller, number),
            StepKind::Commit => Step::Commit(caller),
            StepKind::Abort => Step::Abort(caller),
            StepKind::Sweep => Step::Sweep,
            StepKind::InitSeek => Step::InitSeek(caller, number),
            StepKind::InitLink => Step::InitLink(caller),
            StepKind::InitStore => Step::InitStore(caller),
            StepKind::Double => Step::Double(number),
        }
    }
}

impl Piece for PackedStep {
    fn read<'de, A: SeqAccess<'de>>(mut e: Elements<A>, name: &str) -> Result<Self, A::Error> {
        let step = match name {
            "begin" => PackedStep::of(StepKind::Begin, e.caller()?, 0),
            "ask" => {
                let caller = e.caller()?;
                let (op, number, value, expected) = OpKind::parts(e.op()?);
                PackedStep {
                    kind: StepKind::Ask,
                    op,
                    caller,
                    number,
                    value,
                    expected,
                }
            }
            "seek" => PackedStep::of(StepKind::Seek, e.caller()?, 0),
            "act" => PackedStep::of(StepKind::Act, e.caller()?, 0),
            "save" => PackedStep::of(StepKind::Save, e.caller()?, 0),
            "back" => PackedStep::of(StepKind::Back, e.caller()?, e.next()?),
            "commit" => PackedStep::of(StepKind::Commit, e.caller()?, 0),
            "abort" => PackedStep::of(StepKind::Abort, e.caller()?, 0),
            "sweep" => PackedStep::of(StepKind::Sweep, 0, 0),
            "init_seek" => PackedStep::of(StepKind::InitSeek, e.caller()?, e.next()?),
            "init_link" => PackedStep::of(StepKind::InitLink, e.caller()?, 0),
            "init_store" => PackedStep::of(StepKind::InitStore, e.caller()?, 0),
            "double" => PackedStep::of(StepKind::Double, 0, e.next()?),
            _ => return Err(Error::custom("no such word")),
        };
        e.end(step)
    }

    fn is_put_if(&self) -> bool {
        matches!(self.op, OpKind::PutIf | OpKind::PutIfNone)
    }

    fn last_caller(&self) -> u8 {
        0
    }
}

impl Piece for Entry {
    fn read<'de, A: SeqAccess<'de>>(mut e: Elements<A>, name: &str) -> Result<Self, A::Error> {
        let caller = e.caller()?;
        let entry = match name {
            "began" => Entry::of(Event::Began, caller, e.next()?),
            "asked" => Entry::with_op(Event::Asked, caller, e.op()?, 0),
            "did" => Entry::did(caller, e.next()?),
            "saved" => Entry::of(Event::Saved, caller, 0),
            "leave" => match e.next()? {
                Some(level) => Entry::of(Event::Leave, caller, level),
                None => Entry::of(Event::LeaveToEnd, caller, 0),
            },
            "undone" => Entry::of(Event::Undone, caller, 0),
            "returned" => Entry::of(Event::Returned, caller, e.next()?),
            "committed" => Entry::of(Event::Committed, caller, e.next()?),
            "busy" => Entry::with_op(Event::Busy, caller, e.op()?, e.caller()?),
            "aborted" => Entry::of(Event::Aborted, caller, 0),
            _ => return Err(Error::custom("no such word")),
        };
        e.end(entry)
    }

    fn is_put_if(&self) -> bool {
        matches!(self.kind, OpKind::PutIf | OpKind::PutIfNone)
    }

    fn last_caller(&self) -> u8 {
        self.caller.max(self.holder)
    }
}

impl Piece for Action {
    fn read<'de, A: SeqAccess<'de>>(mut e: Elements<A>, name: &str) -> Result<Self, A::Error> {
        let action = match name {
            "save" => Action::Save,
            "back" => Action::Back(e.next()?),
            "help" => Action::Help(e.next()?),
            "abort" => Action::Abort,
            _ => Action::Op(e.op_named(name)?),
        };
        e.end(action)
    }

    fn is_put_if(&self) -> bool {
        matches!(self, Action::Op(Op::PutIf(..)))
    }

    fn last_caller(&self) -> u8 {
        0
    }
}
