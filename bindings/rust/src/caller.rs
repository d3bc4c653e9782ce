//! The striped map, for threads: each thread has its own caller, and no call takes a lock or waits. Its
//! transactions are apart from those of a `Map`, since a call that is `Busy` ends them. The handle of a
//! caller owns it from `open_striped` to its drop.
use crate::sys::{self, Handle};
use crate::{answer, Error, Operation, Result};
use std::borrow::Borrow;
use std::collections::hash_map::RandomState;
use std::hash::{BuildHasher, Hasher};
use std::iter::FusedIterator;
use std::ops::Range;
use std::thread;
use std::time::Duration;

/// Opens a striped map with no keys, for 1 to 4096 callers and with 1 to 4096 stripes, and returns its
/// callers, in the order of their numbers from 1. The map is freed with the last of them.
///
/// ```
/// use std::thread;
///
/// let mut callers = boostmap::open_striped(4, 64)?;
/// thread::scope(|scope| {
///     for caller in &mut callers {
///         scope.spawn(|| caller.transact(|t| {
///             let count = t.get(7)?.unwrap_or(0);
///             t.put(7, count + 1)
///         }));
///     }
/// });
/// assert_eq!(callers[0].get(7)?, Some(4));
/// # Ok::<(), boostmap::Error>(())
/// ```
///
/// # Errors
///
/// `Limit` and `NoMemory`.
pub fn open_striped(callers: u64, stripes: u64) -> Result<Vec<Caller>> {
    Opening { callers, stripes, ..Opening::default() }.open()
}

/// What a striped map keeps of its history. If it keeps something, its callers write a common word.
#[derive(Clone, Copy, Debug, Default, PartialEq, Eq)]
pub enum Keep {
    /// Nothing.
    #[default]
    Nothing,
    /// The number of its commits, so that each commit tells its place.
    Commits,
    /// Its entries, for a [`Host`](crate::Host).
    Entries,
}

/// How a striped map is opened. By default it has one caller, 64 stripes and no room for keys, keeps
/// nothing, and has a random seed below 2^32.
#[derive(Clone, Copy, Debug, PartialEq, Eq)]
pub struct Opening {
    /// The number of callers, 1 to 4096.
    pub callers: u64,
    /// The number of stripes, 1 to 4096. A key belongs to the stripe `key % stripes`, which a transaction takes and
    /// holds to its end: take several times as many as keys are in open transactions at a time. If all your keys are
    /// multiples of a number, take a number of stripes that shares no factor with it.
    pub stripes: u64,
    /// The number of keys for which the map has room from the start. Memory that it has for keys is kept until the
    /// map is freed.
    pub keys: u64,
    /// What the map keeps of its history.
    pub keep: Keep,
    /// The seed of the hash of keys within a stripe. Whoever knows it can choose keys that make every
    /// call slow. With a seed of 2^32 or more, consecutive keys may be slow.
    pub seed: u64,
}

impl Default for Opening {
    fn default() -> Opening {
        let seed = RandomState::new().build_hasher().finish() >> 32;
        Opening { callers: 1, stripes: 64, keys: 0, keep: Keep::Nothing, seed }
    }
}

impl Opening {
    /// Opens a striped map with no keys, and returns its callers, in the order of their numbers from 1.
    ///
    /// # Errors
    ///
    /// `Limit` and `NoMemory`.
    pub fn open(&self) -> Result<Vec<Caller>> {
        let Opening { callers, stripes, keys, keep, seed } = *self;
        let mut first = Caller::empty();
        // SAFETY: the handle is all zeros and uniquely borrowed.
        let number = answer(&mut first.handle, |at, word| unsafe {
            sys::boostmap_striped_open(at, callers, stripes, keys, keep as u32, seed, word)
        })?;
        first.number = number.unwrap_or_default();
        let mut all = Vec::with_capacity(callers as usize);
        for _ in 1..callers {
            let mut next = Caller::empty();
            let at_next: *mut Handle = &mut next.handle;
            // SAFETY: both handles are uniquely borrowed, and differ.
            let number =
                answer(&mut first.handle, |at, word| unsafe { sys::boostmap_striped_join(at, at_next, word) })?;
            next.number = number.unwrap_or_default();
            all.push(next);
        }
        all.push(first);
        all.sort_by_key(Caller::number);
        Ok(all)
    }
}

/// How a caller's transactions ended.
#[derive(Clone, Copy, Debug, Default, PartialEq, Eq)]
pub struct Counts {
    /// By a commit.
    pub commits: u64,
    /// By an abort.
    pub aborts: u64,
    /// By a call that was `Busy`, which aborts too.
    pub busy: u64,
}

/// What a strict run came to, with the replies of the operations that were done.
#[derive(Clone, Debug, PartialEq, Eq)]
pub enum Ran {
    /// It has committed.
    Committed(Vec<Option<u64>>),
    /// A `PutIf` found another value than it expects: the last reply is its own. Everything has been
    /// taken back.
    Missed(Vec<Option<u64>>),
}

/// A caller of a striped map, for one thread. Its drop aborts an open transaction. Each of its
/// operations is a transaction of its own, which waits and tries again while it is busy.
#[derive(Debug)]
pub struct Caller {
    pub(crate) handle: Handle,
    number: u64,
    commit_number: Option<u64>,
}

// SAFETY: `sends_member` of the archive proves `Send` of what the handle owns, and `&mut self` puts
// the calls on one handle one after another; calls on different handles may run at the same time.
unsafe impl Send for Caller {}

impl Caller {
    /// Its number, by which `Busy` names it.
    pub fn number(&self) -> u64 {
        self.number
    }

    /// The place of its last commit in the order of commits, if the map keeps its commits.
    ///
    /// ```
    /// let how = boostmap::Opening { keep: boostmap::Keep::Commits, ..boostmap::Opening::default() };
    /// let mut caller = how.open()?.remove(0);
    /// caller.put(1, 10)?;
    /// caller.add(1, 1)?;
    /// assert_eq!(caller.commit_number(), Some(2));
    /// # Ok::<(), boostmap::Error>(())
    /// ```
    pub fn commit_number(&self) -> Option<u64> {
        self.commit_number
    }

    /// How its transactions ended.
    pub fn counts(&mut self) -> Counts {
        let mut found = sys::Counts::default();
        // SAFETY: see `call`. The handle has a caller, so the call is done.
        unsafe { sys::boostmap_striped_counts(&mut self.handle, &mut found) };
        let sys::Counts { commits, aborts, busy } = found;
        Counts { commits, aborts, busy }
    }

    /// With what the map was opened. It never fails.
    pub fn options(&mut self) -> Result<Opening> {
        let mut option = |number| {
            // SAFETY: see `call`.
            let told = self.call(|at, word| unsafe { sys::boostmap_striped_option(at, number, word) });
            told.map(Option::unwrap_or_default)
        };
        let (callers, stripes, keys) = (option(0)?, option(1)?, option(2)?);
        let (keep, seed) = ([Keep::Nothing, Keep::Commits, Keep::Entries][option(3)? as usize], option(4)?);
        Ok(Opening { callers, stripes, keys, keep, seed })
    }

    /// Makes another caller of the map, with a number that no caller of the map has or had.
    ///
    /// ```
    /// let mut caller = boostmap::open_striped(1, 64)?.remove(0);
    /// let mut other = caller.another()?;
    /// let thread = std::thread::spawn(move || other.put(7, 70));
    /// thread.join().unwrap()?;
    /// assert_eq!(caller.get(7)?, Some(70));
    /// # Ok::<(), boostmap::Error>(())
    /// ```
    ///
    /// # Errors
    ///
    /// `Limit` if the map keeps its entries, and has had 65,535 callers, and `NoMemory`.
    pub fn another(&mut self) -> Result<Caller> {
        let mut next = Caller::empty();
        let at_next: *mut Handle = &mut next.handle;
        // SAFETY: both handles are uniquely borrowed, and differ.
        let number = self.call(|at, word| unsafe { sys::boostmap_striped_another(at, at_next, word) })?;
        next.number = number.unwrap_or_default();
        Ok(next)
    }

    fn empty() -> Caller {
        Caller { handle: Handle::EMPTY, number: 0, commit_number: None }
    }

    /// Begins a transaction, which aborts if it is dropped before it is committed.
    ///
    /// # Errors
    ///
    /// `AlreadyOpen`, if an earlier transaction was leaked, and, if the map keeps its entries, `NoMemory`.
    pub fn begin(&mut self) -> Result<CallerTransaction<'_>> {
        // SAFETY: see `call`.
        self.call(|at, _| unsafe { sys::boostmap_striped_begin(at) })?;
        Ok(CallerTransaction { caller: self, is_open: true, rolls_back: false })
    }

    /// Aborts a transaction that was leaked, and returns whether there was one.
    pub fn abort(&mut self) -> bool {
        // SAFETY: see `call`.
        self.call(|at, _| unsafe { sys::boostmap_striped_abort(at) }).is_ok()
    }

    /// Runs a job in a transaction: commits, or aborts if the job fails or panics. If a stripe is busy,
    /// it waits and runs the job again: it yields at first, and then sleeps, each time about twice as
    /// long, up to half a millisecond. A job's error may be of any type that an [`Error`] turns into; if
    /// the job ends in `Ok`, name the type, as in `Ok::<_, Error>(value)`. Every `Ok` commits, also
    /// `Ok(Err(..))`, unless the job called [`CallerTransaction::roll_back`].
    ///
    /// ```
    /// #[derive(Debug, PartialEq)]
    /// enum Failed {
    ///     TooLittle,
    ///     Map(boostmap::Error),
    /// }
    ///
    /// impl From<boostmap::Error> for Failed {
    ///     fn from(error: boostmap::Error) -> Failed {
    ///         Failed::Map(error)
    ///     }
    /// }
    ///
    /// let mut caller = boostmap::open_striped(1, 64)?.remove(0);
    /// let spent = caller.transact(|t| match t.put(1, 10)? {
    ///     Some(balance) if balance >= 10 => Ok(balance - 10),
    ///     _ => Err(Failed::TooLittle), // the put is taken back
    /// });
    /// assert_eq!(spent, Err(Failed::TooLittle));
    /// assert_eq!(caller.transact(|t| t.get(1))?, None);
    /// # Ok::<(), boostmap::Error>(())
    /// ```
    ///
    /// # Errors
    ///
    /// The job's, those of `begin`, and `NotOpen` if the job returned `Ok` although a call was `Busy`.
    /// Never the `Busy` of a call of this transaction.
    pub fn transact<T, E: From<Error>>(
        &mut self,
        job: impl FnMut(&mut CallerTransaction<'_>) -> Result<T, E>,
    ) -> Result<T, E> {
        self.transact_within(u64::MAX, job)
    }

    /// As [`Caller::transact`], but runs the job again at most `tries` times.
    ///
    /// # Errors
    ///
    /// Those of `transact`, and the job's error after a `Busy` in the last try.
    pub fn transact_within<T, E: From<Error>>(
        &mut self,
        tries: u64,
        mut job: impl FnMut(&mut CallerTransaction<'_>) -> Result<T, E>,
    ) -> Result<T, E> {
        let (mut left, mut waits) = (tries, Waits::new());
        loop {
            let mut transaction = self.begin()?;
            let error = match job(&mut transaction) {
                Ok(value) if transaction.is_open && transaction.rolls_back => return Ok(value),
                Ok(value) => return transaction.commit().map(|_| value).map_err(E::from),
                Err(error) => error,
            };
            if transaction.is_open || left == 0 {
                return Err(error);
            }
            drop(transaction);
            left -= 1;
            waits.wait();
        }
    }

    /// The value at a key.
    ///
    /// # Errors
    ///
    /// `AlreadyOpen`, if an earlier transaction was leaked, and `NoMemory`.
    pub fn get(&mut self, key: u64) -> Result<Option<u64>> {
        self.transact(|t| t.get(key))
    }

    /// Whether a key has a value.
    ///
    /// # Errors
    ///
    /// Those of [`Caller::get`].
    pub fn contains_key(&mut self, key: u64) -> Result<bool> {
        self.transact(|t| t.contains_key(key))
    }

    /// Takes a key out, and returns the value that it had.
    ///
    /// # Errors
    ///
    /// Those of [`Caller::get`].
    pub fn take(&mut self, key: u64) -> Result<Option<u64>> {
        self.transact(|t| t.take(key))
    }

    /// Puts a value at a key, and returns the value before.
    ///
    /// # Errors
    ///
    /// Those of [`Caller::get`].
    pub fn put(&mut self, key: u64, value: u64) -> Result<Option<u64>> {
        self.transact(|t| t.put(key, value))
    }

    /// Puts a value if the key has the expected one (`None`: if it is absent), and returns the value
    /// before.
    ///
    /// # Errors
    ///
    /// Those of [`Caller::get`].
    pub fn put_if(&mut self, key: u64, expected: Option<u64>, value: u64) -> Result<Option<u64>> {
        self.transact(|t| t.put_if(key, expected, value))
    }

    /// Adds to the value of a key, 0 if it has none, and returns the value before.
    ///
    /// # Errors
    ///
    /// Those of [`Caller::get`], and `Overflow`.
    pub fn add(&mut self, key: u64, delta: i64) -> Result<Option<u64>> {
        self.transact(|t| t.add(key, delta))
    }

    /// Puts a value only if the key has none, and returns the value that it has now.
    ///
    /// # Errors
    ///
    /// Those of [`Caller::get`].
    pub fn get_or_put(&mut self, key: u64, value: u64) -> Result<u64> {
        self.transact(|t| t.get_or_put(key, value))
    }

    /// Puts what `change` makes of the key's value, or takes the key out if that is `None`. Returns the
    /// value before. `change` may run again after it was busy.
    ///
    /// # Errors
    ///
    /// Those of [`Caller::get`].
    pub fn update(&mut self, key: u64, mut change: impl FnMut(Option<u64>) -> Option<u64>) -> Result<Option<u64>> {
        self.transact(|t| t.update(key, &mut change))
    }

    /// The number of keys of the map. Takes every stripe.
    ///
    /// # Errors
    ///
    /// Those of [`Caller::get`].
    pub fn count(&mut self) -> Result<u64> {
        self.transact(|t| t.count())
    }

    /// The pairs of the map, by rising keys. Takes every stripe; the calls of others on those that it has taken
    /// are busy meanwhile.
    ///
    /// # Errors
    ///
    /// Those of [`Caller::get`].
    pub fn items(&mut self) -> Result<Vec<(u64, u64)>> {
        self.transact(|t| t.items())
    }

    /// Puts pairs, in their order, in one transaction.
    ///
    /// ```
    /// let mut caller = boostmap::open_striped(1, 64)?.remove(0);
    /// caller.put_all([(1, 10), (2, 20)])?;
    /// caller.put_all((3..5).map(|key| (key, 10 * key)))?;
    /// let all: std::collections::BTreeMap<u64, u64> = caller.items()?.into_iter().collect();
    /// caller.put_all(all)?;
    /// assert_eq!(caller.count()?, 4);
    /// # Ok::<(), boostmap::Error>(())
    /// ```
    ///
    /// # Errors
    ///
    /// Those of [`Caller::get`].
    pub fn put_all(&mut self, pairs: impl IntoIterator<Item = impl Borrow<(u64, u64)>>) -> Result<()> {
        let pairs: Vec<(u64, u64)> = pairs.into_iter().map(|pair| *pair.borrow()).collect();
        self.transact(|t| t.put_all(&pairs))
    }

    /// Takes every key out, and returns how many there were. Takes every stripe.
    ///
    /// # Errors
    ///
    /// Those of [`Caller::get`].
    pub fn clear(&mut self) -> Result<u64> {
        self.transact(|t| t.clear())
    }

    /// Runs operations in one transaction, by one call of the archive, and returns their replies. It waits
    /// and tries again while it is busy.
    ///
    /// # Errors
    ///
    /// Those of [`Caller::get`].
    pub fn run(&mut self, operations: &[Operation]) -> Result<Vec<Option<u64>>> {
        self.ran(operations, false).map(|(replies, _)| replies)
    }

    /// As [`Caller::run`], but a `PutIf` that finds another value than it expects ends it, and takes
    /// everything back.
    ///
    /// ```
    /// use boostmap::{Operation, Ran};
    ///
    /// let mut caller = boostmap::open_striped(1, 64)?.remove(0);
    /// let moves = [
    ///     Operation::PutIf { key: 1, expected: Some(10), value: 5 },
    ///     Operation::Put { key: 2, value: 5 },
    /// ];
    /// assert_eq!(caller.run_strict(&moves)?, Ran::Missed(vec![None]));
    /// caller.put(1, 10)?;
    /// assert_eq!(caller.run_strict(&moves)?, Ran::Committed(vec![Some(10), None]));
    /// # Ok::<(), boostmap::Error>(())
    /// ```
    ///
    /// # Errors
    ///
    /// Those of [`Caller::get`].
    pub fn run_strict(&mut self, operations: &[Operation]) -> Result<Ran> {
        let (replies, commits) = self.ran(operations, true)?;
        Ok(if commits { Ran::Committed(replies) } else { Ran::Missed(replies) })
    }

    // The replies of a run, and whether it committed.
    fn ran(&mut self, operations: &[Operation], is_strict: bool) -> Result<(Vec<Option<u64>>, bool)> {
        let asked: Vec<_> = operations.iter().map(|operation| operation.to_c(sys::Entry::default())).collect();
        let (mut found, mut waits) = (vec![sys::Reply::default(); asked.len()], Waits::new());
        let mut replies = Vec::with_capacity(asked.len());
        loop {
            let (mut done, mut word) = (0, 0);
            // SAFETY: see `call`. Each array has as many places as its length says.
            let status = unsafe {
                sys::boostmap_striped_run(
                    &mut self.handle,
                    asked.as_ptr(),
                    asked.len(),
                    is_strict.into(),
                    found.as_mut_ptr(),
                    found.len(),
                    &mut done,
                    &mut word,
                )
            };
            match status {
                sys::BUSY => waits.wait(),
                sys::DONE | sys::MISSED => {
                    replies.extend(found[..done as usize].iter().map(|reply| (reply.has != 0).then_some(reply.value)));
                    if status == sys::DONE {
                        self.commit_number = Some(word).filter(|&place| place != 0);
                    }
                    return Ok((replies, status == sys::DONE));
                }
                _ => return Err(Error::from_status(status, word)),
            }
        }
    }

    /// Walks over the map: the pairs of each stripe, by rising keys. Each stripe is read in a transaction
    /// of its own, which waits and tries again while it is busy. So the pairs are no snapshot.
    ///
    /// # Errors
    ///
    /// Each page may have those of [`Caller::get`] instead. The walk then goes on with the next stripe.
    pub fn pages(&mut self) -> Pages<'_> {
        let stripes = self.options().map_or(0, |how| how.stripes);
        Pages { caller: self, keys: 0..stripes }
    }

    // Each job is one call of the archive. SAFETY of them all: the handle is live from `open_striped`
    // to `drop`, and both pointers are unique borrows.
    fn call(&mut self, job: impl FnOnce(*mut Handle, *mut u64) -> u32) -> Result<Option<u64>> {
        answer(&mut self.handle, job)
    }
}

impl Drop for Caller {
    fn drop(&mut self) {
        // SAFETY: dropped once, and the call accepts an empty handle.
        unsafe { sys::boostmap_striped_free(&mut self.handle) };
    }
}

/// A walk over a map, by [`Caller::pages`]. Its items are the pairs of one stripe after the other.
#[derive(Debug)]
pub struct Pages<'a> {
    caller: &'a mut Caller,
    // Of each stripe that is not read yet, a key.
    keys: Range<u64>,
}

impl Iterator for Pages<'_> {
    type Item = Result<Vec<(u64, u64)>>;

    fn next(&mut self) -> Option<Self::Item> {
        let key = self.keys.next()?;
        Some(self.caller.transact(|t| t.page(key)))
    }

    fn size_hint(&self) -> (usize, Option<usize>) {
        let left = (self.keys.end - self.keys.start) as usize;
        (left, Some(left))
    }
}

impl ExactSizeIterator for Pages<'_> {}

impl FusedIterator for Pages<'_> {}

/// An open transaction of a caller, which aborts if it is dropped before it is committed. It is over
/// once a call returns `Busy`: every further call returns `NotOpen`.
#[derive(Debug)]
pub struct CallerTransaction<'a> {
    caller: &'a mut Caller,
    is_open: bool,
    rolls_back: bool,
}

impl CallerTransaction<'_> {
    /// The value at a key.
    ///
    /// # Errors
    ///
    /// `Busy`, `NotOpen` and `NoMemory`, after which the transaction may hold the key's stripe.
    pub fn get(&mut self, key: u64) -> Result<Option<u64>> {
        self.operate(Operation::Get { key })
    }

    /// Whether a key has a value.
    ///
    /// # Errors
    ///
    /// Those of `get`.
    pub fn contains_key(&mut self, key: u64) -> Result<bool> {
        self.get(key).map(|value| value.is_some())
    }

    /// Takes a key out, and returns the value that it had.
    ///
    /// # Errors
    ///
    /// Those of `get`.
    pub fn take(&mut self, key: u64) -> Result<Option<u64>> {
        self.operate(Operation::Take { key })
    }

    /// Puts a value at a key, and returns the value before.
    ///
    /// # Errors
    ///
    /// Those of `get`.
    pub fn put(&mut self, key: u64, value: u64) -> Result<Option<u64>> {
        self.operate(Operation::Put { key, value })
    }

    /// Puts a value if the key has the expected one (`None`: if it is absent), and returns the value
    /// before. The value was put exactly if the value before is the expected one.
    ///
    /// # Errors
    ///
    /// Those of `get`.
    pub fn put_if(&mut self, key: u64, expected: Option<u64>, value: u64) -> Result<Option<u64>> {
        self.operate(Operation::PutIf { key, expected, value })
    }

    fn operate(&mut self, operation: Operation) -> Result<Option<u64>> {
        self.call(|at, word| unsafe {
            match operation {
                Operation::Get { key } => sys::boostmap_striped_get(at, key, word),
                Operation::Take { key } => sys::boostmap_striped_take(at, key, word),
                Operation::Put { key, value } => sys::boostmap_striped_put(at, key, value, word),
                Operation::PutIf { key, expected: None, value } => {
                    sys::boostmap_striped_put_if_absent(at, key, value, word)
                }
                Operation::PutIf { key, expected: Some(expected), value } => {
                    sys::boostmap_striped_put_if_equal(at, key, expected, value, word)
                }
            }
        })
    }

    /// Adds to the value of a key, 0 if it has none, and returns the value before.
    ///
    /// # Errors
    ///
    /// Those of `get`, and `Overflow`, after which nothing has changed.
    pub fn add(&mut self, key: u64, delta: i64) -> Result<Option<u64>> {
        let sum = self.get(key)?.unwrap_or(0).checked_add_signed(delta).ok_or(Error::Overflow)?;
        self.put(key, sum)
    }

    /// Puts a value only if the key has none, and returns the value that it has now.
    ///
    /// # Errors
    ///
    /// Those of `get`.
    pub fn get_or_put(&mut self, key: u64, value: u64) -> Result<u64> {
        Ok(self.put_if(key, None, value)?.unwrap_or(value))
    }

    /// Puts what `change` makes of the key's value, or takes the key out if that is `None`. Returns the
    /// value before.
    ///
    /// # Errors
    ///
    /// Those of `get`.
    pub fn update(&mut self, key: u64, change: impl FnOnce(Option<u64>) -> Option<u64>) -> Result<Option<u64>> {
        let had = self.get(key)?;
        match change(had) {
            Some(value) => self.put(key, value),
            None if had.is_some() => self.take(key),
            None => Ok(None),
        }
    }

    /// Sets a savepoint, and returns its level.
    ///
    /// # Errors
    ///
    /// `NotOpen` and `NoMemory`.
    pub fn save(&mut self) -> Result<u64> {
        self.call(|at, word| unsafe { sys::boostmap_striped_save(at, word) }).map(Option::unwrap_or_default)
    }

    /// Takes back every change since the level was set; 0 is the beginning of the transaction.
    ///
    /// # Errors
    ///
    /// `NotOpen`, `NoSuchLevel`, and, if the map keeps its entries, `NoMemory`.
    pub fn back(&mut self, level: u64) -> Result<()> {
        self.call(|at, _| unsafe { sys::boostmap_striped_back(at, level) }).map(drop)
    }

    /// The number of keys of the map, with the transaction's own changes. Takes every stripe.
    ///
    /// # Errors
    ///
    /// Those of `get`; after `NoMemory` it may hold some of the stripes.
    pub fn count(&mut self) -> Result<u64> {
        self.call(|at, word| unsafe { sys::boostmap_striped_count(at, word) }).map(Option::unwrap_or_default)
    }

    /// The pairs of the key's stripe, by rising keys, with the transaction's own changes. Takes only this
    /// stripe. The keys below the number of stripes are in different ones.
    ///
    /// # Errors
    ///
    /// Those of `get`.
    pub fn page(&mut self, key: u64) -> Result<Vec<(u64, u64)>> {
        let mut pairs = vec![sys::Pair { key: 0, value: 0 }; 16];
        loop {
            let (start, places) = (pairs.as_mut_ptr(), pairs.len());
            // SAFETY: the array has as many places as its length says.
            let count = self.call(|at, word| unsafe {
                match sys::boostmap_striped_read_stripe(at, key, start, places, word) {
                    sys::SHORT => sys::DONE, // with the number of places that it needs
                    status => status,
                }
            })?;
            let count = count.unwrap_or_default() as usize;
            pairs.resize(count, sys::Pair { key: 0, value: 0 });
            if count <= places {
                return Ok(pairs.iter().map(|pair| (pair.key, pair.value)).collect());
            }
        }
    }

    /// The pairs of the map, by rising keys, with the transaction's own changes. Takes every stripe.
    ///
    /// # Errors
    ///
    /// Those of `get`; after `NoMemory` it may hold some of the stripes.
    pub fn items(&mut self) -> Result<Vec<(u64, u64)>> {
        let mut pairs = vec![sys::Pair { key: 0, value: 0 }; self.count()? as usize];
        let (start, places) = (pairs.as_mut_ptr(), pairs.len());
        // SAFETY: the array has as many places as its length says. There is one for each key, since
        // this caller holds every stripe.
        self.call(|at, word| unsafe { sys::boostmap_striped_read(at, start, places, word) })?;
        Ok(pairs.iter().map(|pair| (pair.key, pair.value)).collect())
    }

    /// Puts pairs, in their order.
    ///
    /// # Errors
    ///
    /// Those of `get`, with some of them put.
    pub fn put_all(&mut self, pairs: impl IntoIterator<Item = impl Borrow<(u64, u64)>>) -> Result<()> {
        pairs.into_iter().try_for_each(|pair| {
            let &(key, value) = pair.borrow();
            self.put(key, value).map(drop)
        })
    }

    /// Takes every key out, and returns how many there were. Takes every stripe.
    ///
    /// # Errors
    ///
    /// Those of `get`, with some of them taken out.
    pub fn clear(&mut self) -> Result<u64> {
        let items = self.items()?;
        items.iter().try_for_each(|&(key, _)| self.take(key).map(drop))?;
        Ok(items.len() as u64)
    }

    /// Makes another caller of the map, as [`Caller::another`]; the transaction continues.
    ///
    /// # Errors
    ///
    /// Those of [`Caller::another`].
    pub fn another(&mut self) -> Result<Caller> {
        self.caller.another()
    }

    /// Lets the end of `transact` take everything back, although it returns the job's value. A `commit`
    /// by hand is then refused.
    pub fn roll_back(&mut self) {
        self.rolls_back = true;
    }

    /// Commits, and returns the place in the order of commits, if the map keeps its commits.
    ///
    /// # Errors
    ///
    /// `NotOpen`, also after `roll_back`.
    pub fn commit(mut self) -> Result<Option<u64>> {
        if self.rolls_back {
            return Err(Error::NotOpen);
        }
        let place = self.call(|at, word| unsafe { sys::boostmap_striped_commit(at, word) })?;
        self.is_open = false;
        self.caller.commit_number = place.filter(|&place| place != 0);
        Ok(self.caller.commit_number)
    }

    fn call(&mut self, job: impl FnOnce(*mut Handle, *mut u64) -> u32) -> Result<Option<u64>> {
        if !self.is_open {
            return Err(Error::NotOpen);
        }
        let answer = self.caller.call(job);
        if let Err(Error::Busy(_)) = answer {
            self.is_open = false;
        }
        answer
    }
}

impl Drop for CallerTransaction<'_> {
    fn drop(&mut self) {
        if self.is_open {
            self.caller.abort();
        }
    }
}

/// The waits between the tries of one transaction: four yields, and then sleeps, each twice as long as
/// the one before, up to half a millisecond, and shortened by chance by up to a half.
struct Waits {
    tries: u64,
    longest: u64,
    random: u64,
}

impl Waits {
    fn new() -> Waits {
        Waits { tries: 0, longest: 1_000, random: 0 }
    }

    fn wait(&mut self) {
        self.tries += 1;
        if self.tries <= 4 {
            return thread::yield_now();
        }
        if self.random == 0 {
            self.random = RandomState::new().build_hasher().finish();
        }
        self.random = self.random.wrapping_mul(6_364_136_223_846_793_005).wrapping_add(1_442_695_040_888_963_407);
        let half = self.longest / 2;
        thread::sleep(Duration::from_nanos(half + (self.random >> 33) % half));
        self.longest = (self.longest * 2).min(500_000);
    }
}
