//! Transactional maps from `u64` to `u64`, over the proved static library `boostmap_c`: a map for threads
//! ([`open_striped`]), a map with one owner ([`Map`]), and judges of histories ([`Judge`], [`judge_any_order`]).
//!
//! ```
//! let mut callers = boostmap::open_striped(4, 64)?; // one for each of four threads
//! callers[0].put(1, 100)?; // a transaction of one call
//! let moved = callers[0].transact(|t| {
//!     t.add(1, -30)?;
//!     t.add(2, 30)?;
//!     Ok::<_, boostmap::Error>(30)
//! })?;
//! assert_eq!((moved, callers[1].items()?), (30, vec![(1, 70), (2, 30)]));
//! # Ok::<(), boostmap::Error>(())
//! ```
//!
//! The interface is safe: `&mut self` allows one call at a time on a handle, `Drop` frees what a handle
//! owns, and the calls of the archive require nothing beyond their types. The archive is proved; this
//! crate, with its declarations of the archive's calls, is only tested.
//!
//! A map, a caller, a host and a judge may move to another thread, since what their handles own is `Send`
//! (proved by `sends_map`, `sends_member`, `sends_keeper` and `sends_referee`). A map may be shared behind a `Mutex`.

use std::error;
use std::fmt;

mod any_order;
mod caller;
mod host;
mod judge;

pub use any_order::{judge_any_order, Finding, Link, LinkKind, Reason};
pub use caller::{open_striped, Caller, CallerTransaction, Counts, Keep, Opening, Pages, Ran};
pub use host::Host;
pub use judge::{Entry, Holder, Judge, NotFed, Operation, Rule, Verdict};

/// A map, a caller and a judge can move to another thread, and cannot be shared by threads:
///
/// ```
/// fn moves<T: Send + std::fmt::Debug>() {}
/// moves::<boostmap::Map>();
/// moves::<boostmap::Caller>();
/// moves::<boostmap::Host>();
/// moves::<boostmap::Judge>();
/// ```
///
/// ```compile_fail,E0277
/// fn shares<T: Sync>() {}
/// shares::<boostmap::Map>();
/// ```
///
/// ```compile_fail,E0277
/// fn shares<T: Sync>() {}
/// shares::<boostmap::Caller>();
/// ```
///
/// ```compile_fail,E0277
/// fn shares<T: Sync>() {}
/// shares::<boostmap::Judge>();
/// ```
mod sys {
    use std::ffi::c_void;

    /// A handle of a map, a caller, a host or a judge. Every call reads it, so it has a line of the processor's
    /// cache to itself, in which no other thread writes.
    #[repr(C, align(64))]
    #[derive(Debug)]
    pub struct Handle {
        pub tag: u64,
        pub held: *mut c_void,
    }

    impl Handle {
        /// A handle that owns nothing.
        pub const EMPTY: Handle = Handle { tag: 0, held: std::ptr::null_mut() };
    }

    #[repr(C)]
    #[derive(Clone, Copy)]
    pub struct Pair {
        pub key: u64,
        pub value: u64,
    }

    #[repr(C)]
    #[derive(Clone, Copy, Default)]
    pub struct Entry {
        pub kind: u32,
        pub operation: u32,
        pub caller: u64,
        pub key: u64,
        pub value: u64,
        pub expected: u64,
        pub number: u64,
        pub has: u64,
    }

    #[repr(C)]
    #[derive(Clone, Copy, Default)]
    pub struct Reply {
        pub value: u64,
        pub has: u64,
    }

    #[repr(C)]
    #[derive(Clone, Copy, Default)]
    pub struct Counts {
        pub commits: u64,
        pub aborts: u64,
        pub busy: u64,
    }

    #[repr(C)]
    #[derive(Clone, Copy, Default)]
    pub struct Verdict {
        pub is_legal: u64,
        pub commits: u64,
        pub running: u64,
        pub entry: u64,
        pub rule: u64,
    }

    #[repr(C)]
    #[derive(Clone, Copy, Default)]
    pub struct Link {
        pub transaction: u64,
        pub kind: u64,
        pub key: u64,
        pub value: u64,
        pub has: u64,
    }

    #[repr(C)]
    #[derive(Clone, Copy, Default)]
    pub struct Finding {
        pub kind: u64,
        pub number: u64,
        pub key: u64,
        pub value: u64,
        pub has: u64,
        pub count: u64,
    }

    pub const LINK_READ: u64 = 1;
    pub const LINK_REPLACED: u64 = 2;

    pub const SERIALIZABLE: u64 = 0;
    pub const MISSHAPEN: u64 = 1;
    pub const TORN: u64 = 2;
    pub const UNWRITTEN: u64 = 3;
    pub const IMPOSSIBLE: u64 = 4;
    pub const CYCLE: u64 = 5;

    pub const DONE: u32 = 0;
    pub const ABSENT: u32 = 1;
    pub const BUSY: u32 = 2;
    pub const SHORT: u32 = 7;
    pub const NO_ENTRY: u32 = 8;
    pub const NO_HOST: u32 = 10;
    pub const NOT_KEPT: u32 = 11;
    pub const MISSING: u32 = 12;
    pub const MISSED: u32 = 13;
    pub const NO_SUCH_CALLER: u32 = 18;
    pub const NOT_OPEN: u32 = 19;
    pub const ALREADY_OPEN: u32 = 20;
    pub const LEAVING: u32 = 22;
    pub const NO_SUCH_LEVEL: u32 = 25;
    pub const NO_SUCH_HELPER: u32 = 28;
    pub const NO_MEMORY: u32 = 30;
    pub const STAMPS_USED_UP: u32 = 32;
    pub const LIMIT: u32 = 38;

    extern "C" {
        pub fn boostmap_new(map: *mut Handle, callers: u64, stripes: u64, buckets: u64) -> u32;
        pub fn boostmap_free(map: *mut Handle) -> u32;
        pub fn boostmap_count(map: *mut Handle, word: *mut u64) -> u32;
        pub fn boostmap_read(map: *mut Handle, pairs: *mut Pair, places: usize, word: *mut u64) -> u32;
        pub fn boostmap_help(map: *mut Handle, caller: u64, key: u64) -> u32;
        pub fn boostmap_entries(map: *mut Handle, word: *mut u64) -> u32;
        pub fn boostmap_history(
            map: *mut Handle,
            first: u64,
            entries: *mut Entry,
            places: usize,
            word: *mut u64,
        ) -> u32;
        pub fn boostmap_trim(map: *mut Handle) -> u32;
        pub fn boostmap_trim_above(map: *mut Handle, entries: u64) -> u32;
        pub fn boostmap_begin(map: *mut Handle, caller: u64, word: *mut u64) -> u32;
        pub fn boostmap_commit(map: *mut Handle, caller: u64, word: *mut u64) -> u32;
        pub fn boostmap_abort(map: *mut Handle, caller: u64, word: *mut u64) -> u32;
        pub fn boostmap_get(map: *mut Handle, caller: u64, key: u64, word: *mut u64) -> u32;
        pub fn boostmap_take(map: *mut Handle, caller: u64, key: u64, word: *mut u64) -> u32;
        pub fn boostmap_put(map: *mut Handle, caller: u64, key: u64, value: u64, word: *mut u64) -> u32;
        pub fn boostmap_put_if_absent(map: *mut Handle, caller: u64, key: u64, value: u64, word: *mut u64) -> u32;
        pub fn boostmap_put_if_equal(
            map: *mut Handle,
            caller: u64,
            key: u64,
            expected: u64,
            value: u64,
            word: *mut u64,
        ) -> u32;
        pub fn boostmap_save(map: *mut Handle, caller: u64, word: *mut u64) -> u32;
        pub fn boostmap_back(map: *mut Handle, caller: u64, level: u64, word: *mut u64) -> u32;

        pub fn boostmap_striped_open(
            first: *mut Handle,
            callers: u64,
            stripes: u64,
            keys: u64,
            keep: u32,
            seed: u64,
            word: *mut u64,
        ) -> u32;
        pub fn boostmap_striped_option(caller: *mut Handle, option: u64, word: *mut u64) -> u32;
        pub fn boostmap_striped_counts(caller: *mut Handle, counts: *mut Counts) -> u32;
        pub fn boostmap_striped_join(first: *mut Handle, next: *mut Handle, word: *mut u64) -> u32;
        pub fn boostmap_striped_another(caller: *mut Handle, next: *mut Handle, word: *mut u64) -> u32;
        pub fn boostmap_striped_free(caller: *mut Handle) -> u32;
        pub fn boostmap_striped_begin(caller: *mut Handle) -> u32;
        pub fn boostmap_striped_commit(caller: *mut Handle, word: *mut u64) -> u32;
        pub fn boostmap_striped_abort(caller: *mut Handle) -> u32;
        pub fn boostmap_striped_get(caller: *mut Handle, key: u64, word: *mut u64) -> u32;
        pub fn boostmap_striped_take(caller: *mut Handle, key: u64, word: *mut u64) -> u32;
        pub fn boostmap_striped_put(caller: *mut Handle, key: u64, value: u64, word: *mut u64) -> u32;
        pub fn boostmap_striped_put_if_absent(caller: *mut Handle, key: u64, value: u64, word: *mut u64) -> u32;
        pub fn boostmap_striped_put_if_equal(
            caller: *mut Handle,
            key: u64,
            expected: u64,
            value: u64,
            word: *mut u64,
        ) -> u32;
        pub fn boostmap_striped_save(caller: *mut Handle, word: *mut u64) -> u32;
        pub fn boostmap_striped_back(caller: *mut Handle, level: u64) -> u32;

        pub fn boostmap_striped_count(caller: *mut Handle, word: *mut u64) -> u32;
        pub fn boostmap_striped_read(caller: *mut Handle, pairs: *mut Pair, places: usize, word: *mut u64) -> u32;
        pub fn boostmap_striped_read_stripe(
            caller: *mut Handle,
            key: u64,
            pairs: *mut Pair,
            places: usize,
            word: *mut u64,
        ) -> u32;
        pub fn boostmap_striped_run(
            caller: *mut Handle,
            operations: *const Entry,
            count: usize,
            strict: u32,
            replies: *mut Reply,
            places: usize,
            done: *mut u64,
            word: *mut u64,
        ) -> u32;

        pub fn boostmap_striped_host(first: *mut Handle, host: *mut Handle) -> u32;
        pub fn boostmap_host_history(host: *mut Handle, entries: *mut Entry, places: usize, word: *mut u64) -> u32;
        pub fn boostmap_host_free(host: *mut Handle) -> u32;

        pub fn boostmap_judge_new(judge: *mut Handle, stripes: u64, rule: u32) -> u32;
        pub fn boostmap_judge_feed(judge: *mut Handle, entry: *const Entry) -> u32;
        pub fn boostmap_judge_feed_all(judge: *mut Handle, entries: *const Entry, count: usize, word: *mut u64) -> u32;
        pub fn boostmap_judge_verdict(judge: *mut Handle, verdict: *mut Verdict) -> u32;
        pub fn boostmap_judge_free(judge: *mut Handle) -> u32;
        pub fn boostmap_judge_any_order(
            entries: *const Entry,
            count: usize,
            real_time: u32,
            links: *mut Link,
            places: usize,
            finding: *mut Finding,
        ) -> u32;
    }
}

/// Why a call failed.
#[derive(Clone, Copy, Debug, PartialEq, Eq)]
pub enum Error {
    /// The caller with this number holds a stripe that the call needs. The transaction can then
    /// only abort; on a striped map it has been aborted.
    Busy(u64),
    /// The caller's number is out of range.
    NoSuchCaller,
    /// The caller has no transaction.
    NotOpen,
    /// The caller has a transaction already.
    AlreadyOpen,
    /// After `Busy`: the transaction can only abort.
    Leaving,
    /// The level is above the number of savepoints.
    NoSuchLevel,
    /// Memory was refused. Nothing has changed, unless the comment of the call says so.
    NoMemory,
    /// All stamps are used up: 2^64 - 2 nodes were made.
    StampsUsedUp,
    /// A limit is out of range.
    Limit,
    /// An entry's caller is not below 64.
    NoEntry,
    /// The sum of an `add` does not fit in 64 bits.
    Overflow,
    /// None of these callers has the map's host.
    NoHost,
    /// The map does not keep its entries.
    NotKept,
    /// The caller of the map with this number stands.
    Missing(u64),
    /// A status that no call of this crate can return.
    Other(u32),
}

impl Error {
    fn from_status(status: u32, word: u64) -> Error {
        match status {
            sys::BUSY => Error::Busy(word),
            sys::NO_ENTRY => Error::NoEntry,
            sys::NO_HOST => Error::NoHost,
            sys::NOT_KEPT => Error::NotKept,
            sys::MISSING => Error::Missing(word),
            sys::NO_SUCH_CALLER | sys::NO_SUCH_HELPER => Error::NoSuchCaller,
            sys::NOT_OPEN => Error::NotOpen,
            sys::ALREADY_OPEN => Error::AlreadyOpen,
            sys::LEAVING => Error::Leaving,
            sys::NO_SUCH_LEVEL => Error::NoSuchLevel,
            sys::NO_MEMORY => Error::NoMemory,
            sys::STAMPS_USED_UP => Error::StampsUsedUp,
            sys::LIMIT => Error::Limit,
            other => Error::Other(other),
        }
    }
}

impl fmt::Display for Error {
    fn fmt(&self, f: &mut fmt::Formatter<'_>) -> fmt::Result {
        match self {
            Error::Busy(caller) => write!(f, "caller {caller} holds the key's stripe"),
            Error::NoSuchCaller => f.write_str("there is no such caller"),
            Error::NotOpen => f.write_str("the caller has no transaction"),
            Error::AlreadyOpen => f.write_str("the caller has a transaction already"),
            Error::Leaving => f.write_str("the transaction can only abort"),
            Error::NoSuchLevel => f.write_str("there is no such level"),
            Error::NoMemory => f.write_str("memory was refused"),
            Error::StampsUsedUp => f.write_str("no stamp is left"),
            Error::Limit => f.write_str("a limit is out of range"),
            Error::NoEntry => f.write_str("the entry's caller is not below 64"),
            Error::Overflow => f.write_str("the sum does not fit in 64 bits"),
            Error::NoHost => f.write_str("no caller has the map's host"),
            Error::NotKept => f.write_str("the map does not keep its entries"),
            Error::Missing(caller) => write!(f, "caller {caller} of the map stands"),
            Error::Other(status) => write!(f, "status {status}"),
        }
    }
}

impl error::Error for Error {}

/// The result of a call.
pub type Result<T, E = Error> = std::result::Result<T, E>;

/// A transactional map with one owner, for up to 64 callers whose transactions may be open at the same
/// time. Its memory grows with its history, unless it is trimmed. It does not hash: keys whose low bits are all
/// alike, as multiples of 65536, form one long list.
#[derive(Debug)]
pub struct Map(sys::Handle);

// SAFETY: `sends_map` of the archive proves `Send` of what a handle owns, and `&mut self` puts the
// calls one after another.
unsafe impl Send for Map {}

impl Map {
    /// An empty map for 1 to 64 callers, with 1 to 4096 stripes and at most `buckets` buckets, a power
    /// of two from 2 to 65536.
    ///
    /// # Errors
    ///
    /// `Limit` and `NoMemory`.
    pub fn new(callers: u64, stripes: u64, buckets: u64) -> Result<Map> {
        let mut map = Map(sys::Handle::EMPTY);
        // SAFETY: the handle is all zeros and uniquely borrowed.
        match unsafe { sys::boostmap_new(&mut map.0, callers, stripes, buckets) } {
            sys::DONE => Ok(map),
            status => Err(Error::from_status(status, 0)),
        }
    }

    /// The number of keys of the map, with the changes of open transactions. It never fails.
    pub fn count(&mut self) -> Result<u64> {
        self.call(|map, word| unsafe { sys::boostmap_count(map, word) }).map(Option::unwrap_or_default)
    }

    /// The pairs of the map, with the changes of open transactions, in no particular order.
    ///
    /// # Errors
    ///
    /// `NoMemory`.
    pub fn items(&mut self) -> Result<Vec<(u64, u64)>> {
        let mut pairs = vec![sys::Pair { key: 0, value: 0 }; self.count()? as usize];
        let (start, places) = (pairs.as_mut_ptr(), pairs.len());
        // SAFETY: the array has as many places as its length says, one for each key.
        self.call(|map, word| unsafe { sys::boostmap_read(map, start, places, word) })?;
        Ok(pairs.iter().map(|pair| (pair.key, pair.value)).collect())
    }

    /// The number of entries of the map's history, each of which takes 32 bytes. It never fails.
    pub fn entries(&mut self) -> Result<u64> {
        self.call(|map, word| unsafe { sys::boostmap_entries(map, word) }).map(Option::unwrap_or_default)
    }

    /// The map's history, for a [`Judge`] of the map's number of stripes. It never fails.
    pub fn history(&mut self) -> Result<Vec<Entry>> {
        let mut entries = vec![sys::Entry::default(); self.entries()? as usize];
        let (start, places) = (entries.as_mut_ptr(), entries.len());
        // SAFETY: the array has as many places as its length says, one for each entry.
        self.call(|map, word| unsafe { sys::boostmap_history(map, 0, start, places, word) })?;
        Ok(entries.iter().filter_map(Entry::from_c).collect())
    }

    /// Cuts the history off: one transaction, which puts the pairs of the map, stands instead.
    ///
    /// # Errors
    ///
    /// `AlreadyOpen` if a caller is in a transaction, `StampsUsedUp` and `NoMemory`.
    pub fn trim(&mut self) -> Result<()> {
        self.call(|map, _| unsafe { sys::boostmap_trim(map) }).map(drop)
    }

    /// From now on the end of a transaction trims a history of more than so many entries, if no caller is
    /// in a transaction, so that the memory stays bounded; 0: never. It never fails.
    pub fn trim_above(&mut self, entries: u64) -> Result<()> {
        self.call(|map, _| unsafe { sys::boostmap_trim_above(map, entries) }).map(drop)
    }

    /// Doubles the table if it has more than two keys a bucket, and initialises the key's bucket. The
    /// table grows by itself, so no program needs this call.
    ///
    /// # Errors
    ///
    /// `NoSuchCaller`; `StampsUsedUp` and `NoMemory`, after which the table may have grown all the same.
    pub fn help(&mut self, caller: u64, key: u64) -> Result<()> {
        self.call(|map, _| unsafe { sys::boostmap_help(map, caller, key) }).map(drop)
    }

    /// Begins a transaction of a caller, which aborts if it is dropped before it is committed. It
    /// borrows the map; to have several open at the same time, use the calls that take the caller's
    /// number, such as [`Map::begin_caller`].
    ///
    /// # Errors
    ///
    /// `NoSuchCaller`, `AlreadyOpen`, `Leaving` and `NoMemory`.
    pub fn begin(&mut self, caller: u64) -> Result<Transaction<'_>> {
        let number = self.begin_caller(caller)?;
        Ok(Transaction { map: self, caller, number, is_open: true })
    }

    /// Runs a job in a transaction: commits, or aborts if the job fails or panics. The job's error may
    /// be of any type that an [`Error`] turns into.
    ///
    /// # Errors
    ///
    /// The job's, those of `begin`, and `Leaving` if the job returned `Ok` although a call was `Busy`.
    pub fn transact<T, E: From<Error>>(
        &mut self,
        caller: u64,
        job: impl FnOnce(&mut Transaction<'_>) -> Result<T, E>,
    ) -> Result<T, E> {
        let mut transaction = self.begin(caller)?;
        let value = job(&mut transaction)?;
        transaction.commit()?;
        Ok(value)
    }

    /// Begins a caller's transaction, and returns its number. It stays open until
    /// [`Map::commit_caller`] or [`Map::abort_caller`].
    ///
    /// # Errors
    ///
    /// `NoSuchCaller`, `AlreadyOpen`, `Leaving` and `NoMemory`.
    pub fn begin_caller(&mut self, caller: u64) -> Result<u64> {
        self.call(|map, word| unsafe { sys::boostmap_begin(map, caller, word) }).map(Option::unwrap_or_default)
    }

    /// Commits a caller's transaction, and returns its place in the order of commits.
    ///
    /// # Errors
    ///
    /// `NoSuchCaller`, `NotOpen` and `Leaving`.
    pub fn commit_caller(&mut self, caller: u64) -> Result<u64> {
        self.call(|map, word| unsafe { sys::boostmap_commit(map, caller, word) }).map(Option::unwrap_or_default)
    }

    /// Aborts a caller's transaction: takes all its changes back.
    ///
    /// # Errors
    ///
    /// `NoSuchCaller` and `NotOpen`.
    pub fn abort_caller(&mut self, caller: u64) -> Result<()> {
        self.call(|map, word| unsafe { sys::boostmap_abort(map, caller, word) }).map(drop)
    }

    /// The value at a key, in the caller's transaction.
    ///
    /// # Errors
    ///
    /// `Busy`, `NoSuchCaller`, `NotOpen`, `Leaving` and `NoMemory`.
    pub fn get(&mut self, caller: u64, key: u64) -> Result<Option<u64>> {
        self.call(|map, word| unsafe { sys::boostmap_get(map, caller, key, word) })
    }

    /// Takes a key out, and returns the value that it had.
    ///
    /// # Errors
    ///
    /// Those of `get`, and `StampsUsedUp`.
    pub fn take(&mut self, caller: u64, key: u64) -> Result<Option<u64>> {
        self.call(|map, word| unsafe { sys::boostmap_take(map, caller, key, word) })
    }

    /// Puts a value at a key, and returns the value before.
    ///
    /// # Errors
    ///
    /// Those of `take`.
    pub fn put(&mut self, caller: u64, key: u64, value: u64) -> Result<Option<u64>> {
        self.call(|map, word| unsafe { sys::boostmap_put(map, caller, key, value, word) })
    }

    /// Puts a value if the key has the expected one (`None`: if it is absent), and returns the value
    /// before. The value was put exactly if the value before is the expected one.
    ///
    /// # Errors
    ///
    /// Those of `take`.
    pub fn put_if(&mut self, caller: u64, key: u64, expected: Option<u64>, value: u64) -> Result<Option<u64>> {
        self.call(|map, word| unsafe {
            match expected {
                None => sys::boostmap_put_if_absent(map, caller, key, value, word),
                Some(expected) => sys::boostmap_put_if_equal(map, caller, key, expected, value, word),
            }
        })
    }

    /// Sets a savepoint, and returns its level.
    ///
    /// # Errors
    ///
    /// `NoSuchCaller`, `NotOpen`, `Leaving` and `NoMemory`.
    pub fn save(&mut self, caller: u64) -> Result<u64> {
        self.call(|map, word| unsafe { sys::boostmap_save(map, caller, word) }).map(Option::unwrap_or_default)
    }

    /// Takes back every change since the level was set; 0 is the beginning of the transaction.
    ///
    /// # Errors
    ///
    /// Those of `save`, and `NoSuchLevel`.
    pub fn back(&mut self, caller: u64, level: u64) -> Result<()> {
        self.call(|map, word| unsafe { sys::boostmap_back(map, caller, level, word) }).map(drop)
    }

    // Each job is one call of the archive. SAFETY of them all: the handle is live from `new` to
    // `drop`, and both pointers are unique borrows.
    fn call(&mut self, job: impl FnOnce(*mut sys::Handle, *mut u64) -> u32) -> Result<Option<u64>> {
        answer(&mut self.0, job)
    }
}

// Makes a call that may write a word, and turns its status into a result.
fn answer(handle: &mut sys::Handle, job: impl FnOnce(*mut sys::Handle, *mut u64) -> u32) -> Result<Option<u64>> {
    let mut word = 0;
    match job(handle, &mut word) {
        sys::DONE => Ok(Some(word)),
        sys::ABSENT => Ok(None),
        status => Err(Error::from_status(status, word)),
    }
}

impl Drop for Map {
    fn drop(&mut self) {
        // SAFETY: dropped once, and the call accepts an empty handle.
        unsafe { sys::boostmap_free(&mut self.0) };
    }
}

/// An open transaction, which aborts if it is dropped before it is committed.
#[derive(Debug)]
pub struct Transaction<'a> {
    map: &'a mut Map,
    caller: u64,
    number: u64,
    is_open: bool,
}

impl Transaction<'_> {
    /// Its number, counted from 1 over all callers.
    pub fn number(&self) -> u64 {
        self.number
    }

    /// The value at a key.
    ///
    /// # Errors
    ///
    /// Those of [`Map::get`].
    pub fn get(&mut self, key: u64) -> Result<Option<u64>> {
        self.map.get(self.caller, key)
    }

    /// Whether a key has a value.
    ///
    /// # Errors
    ///
    /// Those of [`Map::get`].
    pub fn contains_key(&mut self, key: u64) -> Result<bool> {
        self.get(key).map(|value| value.is_some())
    }

    /// Takes a key out, and returns the value that it had.
    ///
    /// # Errors
    ///
    /// Those of [`Map::take`].
    pub fn take(&mut self, key: u64) -> Result<Option<u64>> {
        self.map.take(self.caller, key)
    }

    /// Puts a value at a key, and returns the value before.
    ///
    /// # Errors
    ///
    /// Those of [`Map::take`].
    pub fn put(&mut self, key: u64, value: u64) -> Result<Option<u64>> {
        self.map.put(self.caller, key, value)
    }

    /// Puts a value if the key has the expected one (`None`: if it is absent), and returns the value
    /// before.
    ///
    /// # Errors
    ///
    /// Those of [`Map::take`].
    pub fn put_if(&mut self, key: u64, expected: Option<u64>, value: u64) -> Result<Option<u64>> {
        self.map.put_if(self.caller, key, expected, value)
    }

    /// Sets a savepoint, and returns its level.
    ///
    /// # Errors
    ///
    /// Those of [`Map::save`].
    pub fn save(&mut self) -> Result<u64> {
        self.map.save(self.caller)
    }

    /// Takes back every change since the level was set; 0 is the beginning of the transaction.
    ///
    /// # Errors
    ///
    /// Those of [`Map::back`].
    pub fn back(&mut self, level: u64) -> Result<()> {
        self.map.back(self.caller, level)
    }

    /// Commits, and returns the place in the order of commits.
    ///
    /// # Errors
    ///
    /// `Leaving`, after a call was `Busy`.
    pub fn commit(mut self) -> Result<u64> {
        let number = self.map.commit_caller(self.caller)?;
        self.is_open = false;
        Ok(number)
    }
}

impl Drop for Transaction<'_> {
    fn drop(&mut self) {
        if self.is_open {
            let _ = self.map.abort_caller(self.caller);
        }
    }
}
