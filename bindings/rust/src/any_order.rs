//! The judge of histories by any order of their transactions, as `judge check --serializable`. It needs no
//! handle: it judges a whole history at once.
use crate::sys;
use crate::{Entry, Error, Result};
use std::fmt;

/// Why a transaction of a cycle must come before the next one.
#[derive(Clone, Copy, Debug, PartialEq, Eq)]
pub enum LinkKind {
    /// The next one read the value that it left at the key.
    Read,
    /// The next one replaced the value that it read at the key.
    Replaced,
    /// It had committed when the next one began. Only where real time counts.
    Began,
}

/// A transaction of a cycle. It must come before the next one, and the last before the first.
#[derive(Clone, Copy, Debug, PartialEq, Eq)]
pub struct Link {
    /// Its number.
    pub transaction: u64,
    /// Why it must come before the next one.
    pub kind: LinkKind,
    /// The key of that value, or 0 for `Began`.
    pub key: u64,
    /// The value, or none.
    pub value: Option<u64>,
}

/// Why a history is not serializable.
#[derive(Clone, Debug, PartialEq, Eq)]
pub enum Reason {
    /// The entry with this index, from 0, is the first of the wrong shape.
    Misshapen { entry: u64 },
    /// The replies of this transaction contradict one another.
    Torn { transaction: u64 },
    /// This transaction read a value at a key that no committed transaction left there.
    Unwritten { transaction: u64, key: u64, value: Option<u64> },
    /// This transaction read a value at a key that no serial order gives.
    Impossible { transaction: u64, key: u64, value: Option<u64> },
    /// Each of these transactions must come before the next one.
    Cycle(Vec<Link>),
}

/// What [`judge_any_order`] found. It is displayed as the line of `judge check
/// --serializable`, without the number of open transactions and without the words `in real time`.
#[derive(Clone, Debug, PartialEq, Eq)]
pub enum Finding {
    /// These transactions are a serial order: that of the commits, if it is one.
    Serializable(Vec<u64>),
    /// There is no serial order.
    NotSerializable(Reason),
    /// It is not known: each of these transactions leaves this value at this key.
    Undecided { key: u64, value: Option<u64>, writers: Vec<u64> },
}

/// A value, or none.
struct Words(Option<u64>);

impl fmt::Display for Words {
    fn fmt(&self, f: &mut fmt::Formatter<'_>) -> fmt::Result {
        match self.0 {
            Some(value) => write!(f, "{value}"),
            None => f.write_str("none"),
        }
    }
}

/// The class of a cycle.
fn class_of(links: &[Link]) -> &'static str {
    let of_kind = |kind| links.iter().filter(|link| link.kind == kind).count();
    match (links, of_kind(LinkKind::Replaced), of_kind(LinkKind::Began)) {
        ([one, other], 2, _) if (one.key, one.value) == (other.key, other.value) => "lost update",
        (_, 0, 0) => "G1c",
        (_, 1, 0) => "G-single",
        (_, _, 0) => "G2-item",
        (_, 0, _) => "G1c-realtime",
        (_, 1, _) => "G-single-realtime",
        _ => "G2-item-realtime",
    }
}

impl fmt::Display for Reason {
    fn fmt(&self, f: &mut fmt::Formatter<'_>) -> fmt::Result {
        match self {
            Reason::Misshapen { entry } => write!(f, "entry {entry} has the wrong shape"),
            Reason::Torn { transaction } => {
                write!(f, "the replies of transaction {transaction} contradict one another")
            }
            Reason::Unwritten { transaction, key, value } => {
                let value = Words(*value);
                write!(f, "transaction {transaction} read {value} at key {key}, which no committed transaction left")
            }
            Reason::Impossible { transaction, key, value } => {
                let value = Words(*value);
                write!(f, "transaction {transaction} read {value} at key {key}, which no serial order gives")
            }
            Reason::Cycle(links) => {
                write!(f, "{}, cycle of {}", class_of(links), links.len())?;
                for (link, next) in links.iter().zip(links.iter().cycle().skip(1)) {
                    let (from, to, key, value) = (link.transaction, next.transaction, link.key, Words(link.value));
                    let (did, then) = match link.kind {
                        LinkKind::Read => ("left", "read"),
                        LinkKind::Replaced => ("read", "replaced"),
                        LinkKind::Began => {
                            write!(f, "; transaction {from} committed before transaction {to} began")?;
                            continue;
                        }
                    };
                    write!(f, "; transaction {from} {did} {value} at key {key}, which transaction {to} {then}")?;
                }
                Ok(())
            }
        }
    }
}

impl fmt::Display for Finding {
    fn fmt(&self, f: &mut fmt::Formatter<'_>) -> fmt::Result {
        match self {
            Finding::Serializable(order) => write!(f, "serializable {} commits", order.len()),
            Finding::NotSerializable(reason) => write!(f, "not serializable: {reason}"),
            Finding::Undecided { key, value, writers } => {
                write!(f, "undecided key {key} value {}: transactions", Words(*value))?;
                writers.iter().try_for_each(|writer| write!(f, " {writer}"))
            }
        }
    }
}

impl Link {
    fn from_c(link: &sys::Link) -> Link {
        let kind = match link.kind {
            sys::LINK_READ => LinkKind::Read,
            sys::LINK_REPLACED => LinkKind::Replaced,
            _ => LinkKind::Began,
        };
        Link { transaction: link.transaction, kind, key: link.key, value: (link.has != 0).then_some(link.value) }
    }
}

/// Judges entries by any order of their transactions: is there an order in which each committed transaction
/// has its replies when it runs alone after those before it, from an empty map? If `real_time` is true, it
/// must also come after those that had committed when it began.
///
/// ```
/// use boostmap::{judge_any_order, Entry, Finding, Operation};
///
/// let get = |caller| Entry::Asked(caller, Operation::Get { key: 3 });
/// let put = Entry::Asked(1, Operation::Put { key: 3, value: 30 });
/// let mut entries = vec![Entry::Began(0, 1), Entry::Began(1, 2), get(0), Entry::Did(0, None), put, Entry::Did(1, None)];
/// entries.extend([Entry::Committed(1, 1), Entry::Committed(0, 2)]);
/// assert_eq!(judge_any_order(&entries, false)?, Finding::Serializable(vec![1, 2])); // 1 read nothing, so it comes first
/// # Ok::<(), boostmap::Error>(())
/// ```
///
/// # Errors
///
/// `NoEntry` if the caller of an entry is not below 64, and `NoMemory`.
pub fn judge_any_order(entries: &[Entry], real_time: bool) -> Result<Finding> {
    let commits = entries.iter().filter(|entry| matches!(entry, Entry::Committed(..))).count();
    let entries: Vec<sys::Entry> = entries.iter().map(|entry| entry.to_c()).collect();
    let (mut links, mut found) = (vec![sys::Link::default(); commits], sys::Finding::default());
    loop {
        let (start, places) = (links.as_mut_ptr(), links.len());
        let (array, count) = (entries.as_ptr(), entries.len());
        // SAFETY: the arrays have as many elements as their lengths say, and the finding is a unique borrow.
        match unsafe { sys::boostmap_judge_any_order(array, count, real_time.into(), start, places, &mut found) } {
            sys::DONE => break,
            sys::SHORT => links.resize(found.count as usize, sys::Link::default()),
            status => return Err(Error::from_status(status, 0)),
        }
    }
    links.truncate(found.count as usize);
    let sys::Finding { kind, number: transaction, key, .. } = found;
    let value = (found.has != 0).then_some(found.value);
    let numbers = || links.iter().map(|link| link.transaction).collect();
    Ok(Finding::NotSerializable(match kind {
        sys::SERIALIZABLE => return Ok(Finding::Serializable(numbers())),
        sys::MISSHAPEN => Reason::Misshapen { entry: found.number },
        sys::TORN => Reason::Torn { transaction },
        sys::UNWRITTEN => Reason::Unwritten { transaction, key, value },
        sys::IMPOSSIBLE => Reason::Impossible { transaction, key, value },
        sys::CYCLE => Reason::Cycle(links.iter().map(Link::from_c).collect()),
        _ => return Ok(Finding::Undecided { key, value, writers: numbers() }),
    }))
}
