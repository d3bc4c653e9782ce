//! The steps of a core, as step files have them, and its answers, as a replay prints them.
use std::fmt;

/// The version of step and script files whose keys are below 2^63, and which have no `put_if`.
const HALF_KEYS: u64 = 1;
const LAST_VERSION: u64 = 2;
const KEYS_END: u64 = 1 << 63;

#[derive(Clone, Copy)]
pub struct Limits {
    pub callers: u32,
    pub stripes: u32,
    pub buckets: u32,
    pub half_keys: bool,
}

#[derive(Clone, Copy, PartialEq)]
pub enum Op {
    Put(u64, u64),
    Take(u64),
    Get(u64),
    /// Puts a value at a key if the key has the expected value: the key, the expected value, the value.
    PutIf(u64, Option<u64>, u64),
}

pub type Reply = Option<u64>;

const _: () = assert!(size_of::<Op>() == 32);
const _: () = assert!(size_of::<Step>() == 40);

#[derive(Clone, Copy)]
pub enum Step {
    Begin(u64),
    Ask(u64, Op),
    Seek(u64),
    Act(u64),
    Save(u64),
    Back(u64, u64),
    Commit(u64),
    Abort(u64),
    Sweep,
    InitSeek(u64, u64),
    InitLink(u64),
    InitStore(u64),
    Double(u64),
}

#[derive(Clone, Copy)]
pub enum Refusal {
    BadKey = 1,
    NoSuchCaller = 2,
    NotOpen = 3,
    AlreadyOpen = 4,
    OperationUnfinished = 5,
    Leaving = 6,
    Unplaced = 7,
    NothingToSeek = 8,
    NoSuchLevel = 9,
    NoSuchBucket = 10,
    ParentMissing = 11,
    NoSuchHelper = 12,
    HelperOutOfOrder = 13,
    NoMemory = 14,
    StampsUsedUp = 16,
}

#[derive(Clone, Copy)]
pub enum Answer {
    Began(u64),
    Asked,
    Busy(u64),
    Placed,
    Again,
    Done(Reply),
    Undone,
    Returned(u64),
    Aborted,
    Saved(u64),
    Leaving,
    Committed(u64),
    Swept,
    Clean,
    Ready,
    Present,
    Linked,
    Stored,
    Moved(u64),
    AtLimit,
    Light,
    Doubled(u64),
    Refused(Refusal),
}

impl Limits {
    /// The limits of a step or script file, if they are in range.
    pub fn new(version: u64, callers: u32, stripes: u32, buckets: u32) -> Option<Limits> {
        let is_size = (2..=65_536).contains(&buckets) && buckets.is_power_of_two();
        let are_in_range = (HALF_KEYS..=LAST_VERSION).contains(&version)
            && (1..=64).contains(&callers)
            && (1..=4096).contains(&stripes)
            && is_size;
        are_in_range.then_some(Limits {
            callers,
            stripes,
            buckets,
            half_keys: version == HALF_KEYS,
        })
    }

    pub fn is_bad_key(self, key: u64) -> bool {
        self.half_keys && key >= KEYS_END
    }
}

impl Op {
    pub fn key(self) -> u64 {
        let (Op::Put(key, _) | Op::Take(key) | Op::Get(key) | Op::PutIf(key, ..)) = self;
        key
    }

    /// Whether the operation was a change, if this is its reply.
    pub fn changes(self, reply: Reply) -> bool {
        match self {
            Op::Put(..) => true,
            Op::Take(_) => reply.is_some(),
            Op::Get(_) => false,
            Op::PutIf(_, expected, _) => reply == expected,
        }
    }

    /// Writes the operation's elements in JSON.
    fn write<W: fmt::Write>(self, text: &mut W) -> fmt::Result {
        match self {
            Op::Put(key, value) => write!(text, r#""put",{key},{value}"#),
            Op::Take(key) => write!(text, r#""take",{key}"#),
            Op::Get(key) => write!(text, r#""get",{key}"#),
            Op::PutIf(key, None, value) => write!(text, r#""put_if",{key},null,{value}"#),
            Op::PutIf(key, Some(expected), value) => {
                write!(text, r#""put_if",{key},{expected},{value}"#)
            }
        }
    }

    /// Whether there is such an operation in a file of this version.
    pub fn is_of(self, version: u64) -> bool {
        version != HALF_KEYS || !matches!(self, Op::PutIf(..))
    }
}

impl fmt::Display for Step {
    fn fmt(&self, f: &mut fmt::Formatter) -> fmt::Result {
        match *self {
            Step::Begin(caller) => write!(f, r#"["begin",{caller}]"#),
            Step::Ask(caller, op) => {
                write!(f, r#"["ask",{caller},"#)?;
                op.write(f)?;
                f.write_str("]")
            }
            Step::Seek(caller) => write!(f, r#"["seek",{caller}]"#),
            Step::Act(caller) => write!(f, r#"["act",{caller}]"#),
            Step::Save(caller) => write!(f, r#"["save",{caller}]"#),
            Step::Back(caller, level) => write!(f, r#"["back",{caller},{level}]"#),
            Step::Commit(caller) => write!(f, r#"["commit",{caller}]"#),
            Step::Abort(caller) => write!(f, r#"["abort",{caller}]"#),
            Step::Sweep => write!(f, r#"["sweep"]"#),
            Step::InitSeek(helper, bucket) => write!(f, r#"["init_seek",{helper},{bucket}]"#),
            Step::InitLink(helper) => write!(f, r#"["init_link",{helper}]"#),
            Step::InitStore(helper) => write!(f, r#"["init_store",{helper}]"#),
            Step::Double(seen) => write!(f, r#"["double",{seen}]"#),
        }
    }
}

impl fmt::Display for Answer {
    fn fmt(&self, f: &mut fmt::Formatter) -> fmt::Result {
        match *self {
            Answer::Began(txn) => write!(f, "began {txn}"),
            Answer::Asked => f.write_str("asked"),
            Answer::Busy(holder) => write!(f, "busy {holder}"),
            Answer::Placed => f.write_str("placed"),
            Answer::Again => f.write_str("again"),
            Answer::Done(None) => f.write_str("done none"),
            Answer::Done(Some(value)) => write!(f, "done {value}"),
            Answer::Undone => f.write_str("undone"),
            Answer::Returned(level) => write!(f, "returned {level}"),
            Answer::Aborted => f.write_str("aborted"),
            Answer::Saved(level) => write!(f, "saved {level}"),
            Answer::Leaving => f.write_str("leaving"),
            Answer::Committed(place) => write!(f, "committed {place}"),
            Answer::Swept => f.write_str("swept"),
            Answer::Clean => f.write_str("clean"),
            Answer::Ready => f.write_str("ready"),
            Answer::Present => f.write_str("present"),
            Answer::Linked => f.write_str("linked"),
            Answer::Stored => f.write_str("stored"),
            Answer::Moved(size) => write!(f, "moved {size}"),
            Answer::AtLimit => f.write_str("at limit"),
            Answer::Light => f.write_str("light"),
            Answer::Doubled(size) => write!(f, "doubled {size}"),
            Answer::Refused(refusal) => write!(f, "refused {}", refusal as u64),
        }
    }
}

/// The step whose array is between these brackets.
fn step_in(array: &str) -> Option<Step> {
    let mut words = array.split(',');
    let name = words.next()?.trim_matches('"');
    if name == "sweep" {
        return Some(Step::Sweep);
    }
    let number = words.next()?.parse().ok()?;
    let mut next = || words.next();
    Some(match name {
        "begin" => Step::Begin(number),
        "ask" => {
            let op = next()?.trim_matches('"');
            let key = next()?.parse().ok()?;
            Step::Ask(
                number,
                match op {
                    "put" => Op::Put(key, next()?.parse().ok()?),
                    "take" => Op::Take(key),
                    "get" => Op::Get(key),
                    "put_if" => {
                        let expected = match next()? {
                            "null" => None,
                            number => Some(number.parse().ok()?),
                        };
                        Op::PutIf(key, expected, next()?.parse().ok()?)
                    }
                    _ => return None,
                },
            )
        }
        "seek" => Step::Seek(number),
        "act" => Step::Act(number),
        "save" => Step::Save(number),
        "back" => Step::Back(number, next()?.parse().ok()?),
        "commit" => Step::Commit(number),
        "abort" => Step::Abort(number),
        "init_seek" => Step::InitSeek(number, next()?.parse().ok()?),
        "init_link" => Step::InitLink(number),
        "init_store" => Step::InitStore(number),
        "double" => Step::Double(number),
        _ => return None,
    })
}

fn member(text: &str, name: &str) -> Option<u32> {
    let (_, rest) = text.split_once(&format!("\"{name}\":"))?;
    rest.split([',', '}']).next()?.parse().ok()
}

/// The limits and the steps of a step file without spaces, as `core_steps` writes them.
pub fn read_file(text: &str) -> Option<(Limits, Vec<Step>)> {
    let (head, rest) = text.split_once("\"steps\":[")?;
    let version = u64::from(member(head, "version")?);
    let (callers, stripes) = (member(head, "callers")?, member(head, "stripes")?);
    let limits = Limits::new(version, callers, stripes, member(head, "buckets")?)?;
    let arrays = rest.split('[').skip(1);
    let steps = arrays.map(|piece| step_in(piece.split(']').next()?));
    let steps = steps.collect::<Option<Vec<_>>>()?;
    let are_old = |step: &Step| !matches!(step, Step::Ask(_, op) if !op.is_of(version));
    steps.iter().all(are_old).then_some((limits, steps))
}

/// The text of a step file before its steps, and after them.
pub fn around_steps(limits: &Limits) -> (String, &'static str) {
    let Limits {
        callers,
        stripes,
        buckets,
        half_keys,
    } = limits;
    let version = if *half_keys { HALF_KEYS } else { LAST_VERSION };
    let head = format!(
        r#"{{"version":{version},"callers":{callers},"stripes":{stripes},"buckets":{buckets},"steps":["#
    );
    (head, "]}")
}
