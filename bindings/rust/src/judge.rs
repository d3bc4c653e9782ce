//! The judge of histories, to which entries are fed. It needs no map: the entries may be those of any
//! store. The handle of a judge owns a checker from `new` or `by_commits` to its drop.
use crate::sys::{self, Handle};
use crate::{Error, Result};
use std::error;
use std::fmt;

/// Why entries could not all be fed.
#[derive(Clone, Copy, Debug, PartialEq, Eq)]
pub struct NotFed {
    /// How many were fed: the index of the entry with the error, at which feeding may go on.
    pub fed: usize,
    /// The error of that entry.
    pub error: Error,
}

impl fmt::Display for NotFed {
    fn fmt(&self, f: &mut fmt::Formatter<'_>) -> fmt::Result {
        write!(f, "entry {}: {}", self.fed, self.error)
    }
}

impl error::Error for NotFed {
    fn source(&self) -> Option<&(dyn error::Error + 'static)> {
        Some(&self.error)
    }
}

impl From<NotFed> for Error {
    fn from(not_fed: NotFed) -> Error {
        not_fed.error
    }
}

/// An operation that a transaction asks for.
#[derive(Clone, Copy, Debug, PartialEq, Eq)]
pub enum Operation {
    /// Puts a value at a key.
    Put { key: u64, value: u64 },
    /// Puts a value if the key has the expected one (`None`: if it is absent).
    PutIf { key: u64, expected: Option<u64>, value: u64 },
    /// Takes a key out.
    Take { key: u64 },
    /// Gets the value at a key.
    Get { key: u64 },
}

/// An entry of a history, of this map or of your own store. Its first field is its caller, below 64. No entry is
/// for a read of the whole map: a program that records one itself writes an `Asked` get and a `Did` for each key.
#[derive(Clone, Copy, Debug, PartialEq, Eq)]
pub enum Entry {
    /// A transaction began, with its number, counted from 1 over all callers.
    Began(u64, u64),
    /// An operation was asked for: the caller now holds the key's stripe.
    Asked(u64, Operation),
    /// The reply to the operation that was asked for.
    Did(u64, Option<u64>),
    /// A savepoint was set: the caller's next level.
    Saved(u64),
    /// The caller goes back to a level, or, without one, aborts.
    Leave(u64, Option<u64>),
    /// The newest change that stands is taken back.
    Undone(u64),
    /// The caller is back at the level.
    Returned(u64, u64),
    /// The transaction committed, with its place in the order of commits, from 1.
    Committed(u64, u64),
    /// The caller named last holds the key's stripe; the transaction aborts.
    Busy(u64, Operation, u64),
    /// All changes are taken back.
    Aborted(u64),
}

impl Entry {
    pub(crate) fn to_c(self) -> sys::Entry {
        let of = |kind, caller| sys::Entry { kind, caller, ..sys::Entry::default() };
        match self {
            Entry::Began(caller, number) => sys::Entry { number, ..of(1, caller) },
            Entry::Asked(caller, operation) => operation.to_c(of(2, caller)),
            Entry::Did(caller, reply) => {
                sys::Entry { value: reply.unwrap_or(0), has: reply.is_some().into(), ..of(3, caller) }
            }
            Entry::Saved(caller) => of(4, caller),
            Entry::Leave(caller, level) => {
                sys::Entry { number: level.unwrap_or(0), has: level.is_some().into(), ..of(5, caller) }
            }
            Entry::Undone(caller) => of(6, caller),
            Entry::Returned(caller, number) => sys::Entry { number, ..of(7, caller) },
            Entry::Committed(caller, number) => sys::Entry { number, ..of(8, caller) },
            Entry::Busy(caller, operation, number) => sys::Entry { number, ..operation.to_c(of(9, caller)) },
            Entry::Aborted(caller) => of(10, caller),
        }
    }
}

impl Entry {
    /// The entry that the archive wrote, which is one.
    pub(crate) fn from_c(entry: &sys::Entry) -> Option<Entry> {
        let (caller, number) = (entry.caller, entry.number);
        Some(match entry.kind {
            1 => Entry::Began(caller, number),
            2 => Entry::Asked(caller, Operation::from_c(entry)?),
            3 => Entry::Did(caller, (entry.has != 0).then_some(entry.value)),
            4 => Entry::Saved(caller),
            5 => Entry::Leave(caller, (entry.has != 0).then_some(number)),
            6 => Entry::Undone(caller),
            7 => Entry::Returned(caller, number),
            8 => Entry::Committed(caller, number),
            9 => Entry::Busy(caller, Operation::from_c(entry)?, number),
            10 => Entry::Aborted(caller),
            _ => return None,
        })
    }
}

impl Operation {
    fn from_c(entry: &sys::Entry) -> Option<Operation> {
        let &sys::Entry { key, value, .. } = entry;
        Some(match entry.operation {
            1 => Operation::Put { key, value },
            2 => Operation::PutIf { key, expected: (entry.has != 0).then_some(entry.expected), value },
            3 => Operation::Take { key },
            4 => Operation::Get { key },
            _ => return None,
        })
    }

    pub(crate) fn to_c(self, of: sys::Entry) -> sys::Entry {
        match self {
            Operation::Put { key, value } => sys::Entry { operation: 1, key, value, ..of },
            Operation::PutIf { key, expected, value } => sys::Entry {
                operation: 2,
                key,
                value,
                expected: expected.unwrap_or(0),
                has: expected.is_some().into(),
                ..of
            },
            Operation::Take { key } => sys::Entry { operation: 3, key, ..of },
            Operation::Get { key } => sys::Entry { operation: 4, key, ..of },
        }
    }
}

/// The caller that a `Busy` entry may name.
#[derive(Clone, Copy, Debug, PartialEq, Eq)]
pub enum Holder {
    /// A caller that holds the stripe at that moment.
    Now = 0,
    /// A caller that has begun a transaction before, for stores that note the entry later.
    Begun = 1,
}

/// The number of the rule of commits.
const BY_COMMITS: u32 = 2;

/// The rule that an entry breaks.
#[derive(Clone, Copy, Debug, PartialEq, Eq)]
pub enum Rule {
    /// A reply differs from that of running alone after the commits before it.
    Replies,
    /// Two transactions hold a stripe, or a `Busy` entry names a caller that it may not name.
    Locks,
    /// A caller's entries do not follow the order of a transaction.
    Shape,
}

/// The judge's verdict on the entries so far.
#[derive(Clone, Copy, Debug, PartialEq, Eq)]
pub enum Verdict {
    /// No entry breaks a rule; with the number of committed transactions, and of callers that are in one.
    Legal { commits: u64, running: u64 },
    /// The index of the first entry that breaks a rule, from 0, and the rule.
    Illegal { entry: u64, rule: Rule },
}

/// The judge of a history.
///
/// ```
/// use boostmap::{Entry, Holder, Judge, Operation, Verdict};
///
/// let mut judge = Judge::new(8, Holder::Now)?;
/// judge.feed(Entry::Began(0, 1))?;
/// judge.feed(Entry::Asked(0, Operation::Get { key: 3 }))?;
/// judge.feed(Entry::Did(0, None))?;
/// judge.feed(Entry::Committed(0, 1))?;
/// assert_eq!(judge.verdict(), Verdict::Legal { commits: 1, running: 0 });
/// # Ok::<(), boostmap::Error>(())
/// ```
#[derive(Debug)]
pub struct Judge(Handle);

// SAFETY: `sends_referee` of the archive proves `Send` of what the handle owns, and `&mut self` puts the
// calls one after another.
unsafe impl Send for Judge {}

impl Judge {
    /// Begins to judge the history of a map with `stripes` stripes, each of which takes 9 bytes, by locks.
    ///
    /// # Errors
    ///
    /// `Limit` if there are no stripes, and `NoMemory`.
    pub fn new(stripes: u64, holder: Holder) -> Result<Judge> {
        Judge::by_rule(stripes, holder as u32)
    }

    /// Begins to judge a history by the order of its commits, for stores whose readers share locks or
    /// read snapshots: each transaction that commits has the replies of running alone on what the
    /// commits before it left.
    ///
    /// # Errors
    ///
    /// `NoMemory`.
    pub fn by_commits() -> Result<Judge> {
        Judge::by_rule(0, BY_COMMITS)
    }

    fn by_rule(stripes: u64, rule: u32) -> Result<Judge> {
        let mut judge = Judge(Handle::EMPTY);
        // SAFETY: the handle is all zeros and uniquely borrowed.
        match unsafe { sys::boostmap_judge_new(&mut judge.0, stripes, rule) } {
            sys::DONE => Ok(judge),
            status => Err(Error::from_status(status, 0)),
        }
    }

    /// Feeds the next entry. After the first that breaks a rule, no further one changes the verdict.
    ///
    /// # Errors
    ///
    /// `NoEntry` if the caller is not below 64, and `NoMemory`. Then nothing was fed; after `NoMemory`
    /// the entry may be fed again.
    pub fn feed(&mut self, entry: Entry) -> Result<()> {
        // SAFETY: the handle is live, and both pointers are borrows.
        match unsafe { sys::boostmap_judge_feed(&mut self.0, &entry.to_c()) } {
            sys::DONE => Ok(()),
            status => Err(Error::from_status(status, 0)),
        }
    }

    /// Feeds entries in their order, up to the first that cannot be fed.
    ///
    /// # Errors
    ///
    /// [`NotFed`], with the error of [`Judge::feed`] for that entry. The entries before it are fed.
    pub fn feed_all(&mut self, entries: &[Entry]) -> std::result::Result<(), NotFed> {
        let entries: Vec<sys::Entry> = entries.iter().map(|entry| entry.to_c()).collect();
        let mut fed = 0;
        // SAFETY: the handle is live, the array has as many entries as its length says, and the word is
        // a unique borrow.
        match unsafe { sys::boostmap_judge_feed_all(&mut self.0, entries.as_ptr(), entries.len(), &mut fed) } {
            sys::DONE => Ok(()),
            status => Err(NotFed { fed: fed as usize, error: Error::from_status(status, 0) }),
        }
    }

    /// The verdict on the entries so far.
    pub fn verdict(&mut self) -> Verdict {
        let mut found = sys::Verdict::default();
        // SAFETY: the handle is live, and both pointers are unique borrows.
        unsafe { sys::boostmap_judge_verdict(&mut self.0, &mut found) };
        if found.is_legal == 1 {
            return Verdict::Legal { commits: found.commits, running: found.running };
        }
        let rule = match found.rule {
            1 => Rule::Replies,
            2 => Rule::Locks,
            _ => Rule::Shape,
        };
        Verdict::Illegal { entry: found.entry, rule }
    }
}

impl Drop for Judge {
    fn drop(&mut self) {
        // SAFETY: dropped once, and the call accepts an empty handle.
        unsafe { sys::boostmap_judge_free(&mut self.0) };
    }
}
