use boostmap::{
    open_striped, Caller, Counts, Entry, Error, Holder, Judge, Keep, NotFed, Opening, Operation, Ran, Rule, Verdict,
};
use std::mem;
use std::sync::mpsc;
use std::thread;
use std::time::Duration;

fn two() -> Result<(Caller, Caller), Error> {
    let mut all = Opening { callers: 2, stripes: 16, keep: Keep::Commits, ..Opening::default() }.open()?;
    let second = all.pop().unwrap();
    Ok((all.pop().unwrap(), second))
}

#[test]
fn a_transaction_commits_or_leaves_nothing() -> Result<(), Error> {
    let (mut one, mut other) = two()?;
    assert_eq!((one.number(), other.number()), (1, 2));
    one.transact(|t| {
        assert_eq!(t.put(1, 10)?, None);
        let level = t.save()?;
        assert_eq!(t.take(1)?, Some(10));
        t.back(level)?;
        assert_eq!(t.back(2), Err(Error::NoSuchLevel));
        assert_eq!(t.put_if(1, None, 11)?, Some(10));
        assert_eq!(t.put_if(1, Some(10), 12)?, Some(10));
        Ok::<_, Error>(())
    })?;
    let failed = one.transact(|t| t.put(2, 20).and(Err::<(), _>(Error::Limit)));
    assert_eq!(failed, Err(Error::Limit));
    one.begin()?.put(2, 20)?;
    assert_eq!(other.transact(|t| Ok::<_, Error>((t.get(1)?, t.get(2)?)))?, (Some(12), None));
    assert_eq!(other.begin()?.commit()?, Some(3));
    let pairs = other.transact(|t| {
        t.put(0, 9)?;
        assert_eq!(t.count()?, 2);
        t.items()
    })?;
    assert_eq!(pairs, [(0, 9), (1, 12)]);
    let mut plain = open_striped(1, 8)?.remove(0);
    assert_eq!(plain.transact(|t| t.items())?, []);
    assert_eq!(plain.begin()?.commit()?, None);
    Ok(())
}

#[test]
fn a_map_tells_how_it_was_opened() -> Result<(), Error> {
    let how = Opening { callers: 3, stripes: 16, keys: 100, keep: Keep::Commits, seed: 7 };
    assert!(how.open()?.iter_mut().all(|caller| caller.options() == Ok(how)));
    assert_eq!(open_striped(2, 8)?[1].options()?.stripes, 8);
    Ok(())
}

#[test]
fn busy_ends_the_transaction() -> Result<(), Error> {
    let (mut one, mut other) = two()?;
    let mut holds = one.begin()?;
    holds.put(5, 50)?;
    let mut runs = 0;
    let busy = other.transact_within(3, |t| {
        runs += 1;
        t.put(6, 60)?;
        t.get(5 + 16)
    });
    assert_eq!((busy, runs), (Err(Error::Busy(1)), 4));
    let mut t = other.begin()?;
    assert_eq!(t.get(5), Err(Error::Busy(1)));
    assert_eq!(t.get(6), Err(Error::NotOpen));
    assert_eq!(t.commit(), Err(Error::NotOpen));
    assert_eq!(other.counts(), Counts { commits: 0, aborts: 0, busy: 5 });
    mem::forget(holds);
    drop(one);
    assert_eq!(other.transact(|t| Ok::<_, Error>((t.get(5)?, t.get(6)?)))?, (None, None));
    assert!(matches!(open_striped(0, 1), Err(Error::Limit)));
    assert!(matches!(open_striped(1, 4097), Err(Error::Limit)));
    Ok(())
}

#[derive(Debug, PartialEq)]
struct Mine(u64);

impl From<Error> for Mine {
    fn from(_: Error) -> Mine {
        Mine(0)
    }
}

#[test]
fn an_error_of_any_type_takes_everything_back() -> Result<(), Error> {
    let (mut one, mut other) = two()?;
    let failed = one.transact(|t| {
        t.put(1, 10)?;
        Err::<(), _>(Mine(t.get(1)?.unwrap_or(0)))
    });
    assert_eq!(failed, Err(Mine(10)));
    assert_eq!(other.transact(|t| t.get(1))?, None);
    assert_eq!(other.transact(|t| t.back(1).map_err(|_| Mine(7))), Err(Mine(7)));
    Ok(())
}

#[test]
fn only_its_own_busy_is_tried_again() -> Result<(), Error> {
    let (mut one, mut other) = two()?;
    let (mut apart, mut held) = two()?;
    let mut holds = held.begin()?;
    holds.put(5, 50)?;
    let mut runs = 0;
    let busy = one.transact(|t| {
        runs += 1;
        t.put(1, 10)?;
        apart.begin()?.get(5)
    });
    assert_eq!((busy, runs), (Err(Error::Busy(2)), 1));
    assert_eq!(other.transact(|t| t.get(1))?, None);
    Ok(())
}

#[test]
fn a_caller_may_change_threads() -> Result<(), Error> {
    let (mut one, mut other) = two()?;
    let (sender, receiver) = mpsc::channel::<Caller>();
    let thread = thread::spawn(move || {
        let mut caller = receiver.recv().unwrap();
        caller.transact(|t| t.put(1, 10)).unwrap();
    });
    one.transact(|t| t.put(1, 1))?;
    sender.send(one).unwrap();
    thread.join().unwrap();
    assert_eq!(other.transact(|t| t.get(1))?, Some(10));
    Ok(())
}

#[test]
fn threads_keep_the_sum() -> Result<(), Error> {
    const KEYS: u64 = 16;
    let mut callers = open_striped(4, 8)?;
    callers[0].transact(|t| (0..KEYS).try_for_each(|key| t.put(key, 100).map(drop)))?;
    thread::scope(|scope| {
        for caller in &mut callers {
            scope.spawn(move || {
                let me = caller.number();
                for i in 0..5000 {
                    let (from, to) = ((i * 7 + me) % KEYS, (i * 11 + 3 * me + 1) % KEYS);
                    caller
                        .transact(|t| {
                            let has = t.get(from)?.unwrap_or(0);
                            t.put(from, has.saturating_sub(1))?;
                            let had = t.get(to)?.unwrap_or(0);
                            t.put(to, had + has.min(1))
                        })
                        .unwrap();
                }
            });
        }
    });
    let sum: Result<u64, Error> =
        callers[0].transact(|t| (0..KEYS).try_fold(0, |sum, key| Ok(sum + t.get(key)?.unwrap_or(0))));
    assert_eq!(sum, Ok(100 * KEYS));
    Ok(())
}

#[test]
fn a_whole_transaction_in_one_call() -> Result<(), Error> {
    let (mut one, mut other) = two()?;
    let put_if = |key, expected, value| Operation::PutIf { key, expected, value };
    let operations = [
        Operation::Put { key: 1, value: 10 },
        Operation::Get { key: 1 },
        put_if(1, Some(9), 11),
        put_if(2, None, 20),
        Operation::Take { key: 1 },
    ];
    assert_eq!(one.run(&operations)?, [None, Some(10), Some(10), None, Some(10)]);
    assert_eq!(one.run_strict(&[])?, Ran::Committed(vec![]));
    assert_eq!(one.run_strict(&operations)?, Ran::Missed(vec![None, Some(10), Some(10)]));
    let committed = one.run_strict(&[Operation::Put { key: 1, value: 12 }, put_if(2, Some(20), 21)])?;
    assert_eq!(committed, Ran::Committed(vec![None, Some(20)]));
    assert_eq!((other.items()?, other.run(&[])?), (vec![(1, 12), (2, 21)], vec![]));
    assert_eq!(one.counts(), Counts { commits: 3, aborts: 1, busy: 0 });
    assert_eq!((one.commit_number(), other.commit_number()), (Some(3), Some(5)));
    mem::forget(one.begin()?);
    assert_eq!(one.run(&operations), Err(Error::AlreadyOpen));
    assert_eq!(one.run_strict(&operations), Err(Error::AlreadyOpen));
    Ok(())
}

/// The holder ends when the others have most likely found it.
#[test]
fn runs_and_walks_wait() -> Result<(), Error> {
    let (mut one, mut other) = two()?;
    for walks in [false, true] {
        let mut holds = one.begin()?;
        holds.put(5, 50)?;
        let waiting = &mut other;
        thread::scope(|scope| {
            let waits = scope.spawn(move || {
                if walks {
                    return waiting.pages().find(|page| page != &Ok(vec![]));
                }
                Some(waiting.run(&[Operation::Get { key: 5 }]).map(|replies| vec![(5, replies[0].unwrap())]))
            });
            thread::sleep(Duration::from_millis(20));
            holds.commit()?;
            assert_eq!(waits.join().unwrap(), Some(Ok(vec![(5, 50)])));
            Ok::<_, Error>(())
        })?;
    }
    Ok(())
}

/// Threads add up by strict runs, which wait while they are busy, and begin again if they miss.
#[test]
fn threads_that_run_keep_the_sum() -> Result<(), Error> {
    const THREADS: u64 = 4;
    const ROUNDS: u64 = 2000;
    let mut callers = open_striped(THREADS, 4)?;
    callers[0].put_all([(7, 0), (8, 0)])?;
    let both = [Operation::Get { key: 7 }, Operation::Get { key: 8 }];
    thread::scope(|scope| {
        for caller in &mut callers {
            scope.spawn(|| {
                let mut made = 0;
                while made < ROUNDS {
                    let found = caller.run(&both).unwrap();
                    assert_eq!(found[0], found[1]);
                    let value = found[0].unwrap() + 1;
                    let adds =
                        [Operation::Put { key: 8, value }, Operation::PutIf { key: 7, expected: found[0], value }];
                    made += u64::from(matches!(caller.run_strict(&adds).unwrap(), Ran::Committed(_)));
                }
            });
        }
    });
    assert_eq!(callers[0].run(&both)?, [Some(THREADS * ROUNDS); 2]);
    Ok(())
}

/// A walk beside threads that move units within a stripe: each page has the sum of its stripe.
#[test]
fn pages_are_whole() -> Result<(), Error> {
    const STRIPES: u64 = 8;
    const KEYS: u64 = 20 * STRIPES;
    let mut callers = open_striped(4, STRIPES)?;
    callers[0].put_all((0..KEYS).map(|key| (key, 100)))?;
    let (walker, movers) = callers.split_first_mut().unwrap();
    thread::scope(|scope| {
        for caller in movers {
            scope.spawn(move || {
                let me = caller.number();
                for i in 0..3000 {
                    let from = i * (2 * me + 1) % KEYS;
                    let moved = caller.transact(|t| {
                        if t.get(from)? > Some(0) {
                            t.add(from, -1)?;
                            t.add((from + STRIPES) % KEYS, 1)?;
                        }
                        Ok::<_, Error>(())
                    });
                    moved.unwrap();
                }
            });
        }
        for _ in 0..20 {
            let pages: Vec<_> = walker.pages().collect::<Result<_, _>>().unwrap();
            assert_eq!(pages.len() as u64, STRIPES);
            for (stripe, page) in (0..).zip(&pages) {
                assert!(page.iter().map(|&(key, _)| key).eq((stripe..KEYS).step_by(STRIPES as usize)));
                assert_eq!(page.iter().map(|&(_, value)| value).sum::<u64>(), 100 * KEYS / STRIPES);
            }
        }
    });
    let (one, others) = callers.split_first_mut().unwrap();
    let (mut reads, mut writes) = (one.begin()?, others[0].begin()?);
    assert_eq!(reads.page(3 + STRIPES)?.len() as u64, KEYS / STRIPES);
    assert_eq!(writes.put(4, 1).map(drop), Ok(()));
    assert!(matches!(writes.get(3), Err(Error::Busy(_))));
    assert_eq!(writes.page(4), Err(Error::NotOpen));
    mem::forget(reads);
    assert!(one.pages().all(|page| page == Err(Error::AlreadyOpen)));
    assert_eq!(one.pages().count() as u64, STRIPES);
    Ok(())
}

#[test]
fn the_judge_names_the_first_bad_entry() -> Result<(), Error> {
    let put = Operation::PutIf { key: 3, expected: None, value: 30 };
    let entries = [
        Entry::Began(0, 1),
        Entry::Asked(0, put),
        Entry::Did(0, None),
        Entry::Began(1, 2),
        Entry::Busy(1, Operation::Get { key: 3 }, 0),
        Entry::Aborted(1),
        Entry::Saved(0),
        Entry::Asked(0, Operation::Take { key: 3 }),
        Entry::Did(0, Some(30)),
        Entry::Leave(0, Some(1)),
        Entry::Undone(0),
        Entry::Returned(0, 1),
        Entry::Committed(0, 1),
    ];
    let mut judge = Judge::new(8, Holder::Now)?;
    entries.iter().try_for_each(|entry| judge.feed(*entry))?;
    assert_eq!(judge.verdict(), Verdict::Legal { commits: 1, running: 0 });
    assert_eq!(judge.feed(Entry::Saved(64)), Err(Error::NoEntry));
    judge.feed(Entry::Began(0, 3))?;
    judge.feed(Entry::Asked(0, Operation::Put { key: 3, value: 31 }))?;
    judge.feed(Entry::Did(0, Some(31)))?;
    assert_eq!(judge.verdict(), Verdict::Illegal { entry: 15, rule: Rule::Replies });
    assert!(matches!(Judge::new(0, Holder::Begun), Err(Error::Limit)));
    Ok(())
}

#[test]
fn readers_of_one_key_are_serializable() -> Result<(), Error> {
    let get = Operation::Get { key: 3 };
    let (mut by_locks, mut by_commits) = (Judge::new(8, Holder::Now)?, Judge::by_commits()?);
    let entries = [
        Entry::Began(0, 1),
        Entry::Began(1, 2),
        Entry::Asked(0, get),
        Entry::Did(0, None),
        Entry::Asked(1, get),
        Entry::Did(1, None),
        Entry::Committed(0, 1),
        Entry::Committed(1, 2),
    ];
    by_locks.feed_all(&entries)?;
    by_commits.feed_all(&entries)?;
    by_commits.feed_all(&[])?;
    let not_fed = NotFed { fed: 1, error: Error::NoEntry };
    assert_eq!(by_commits.feed_all(&[Entry::Began(0, 3), Entry::Saved(64), Entry::Saved(1)]), Err(not_fed));
    assert_eq!(not_fed.to_string(), "entry 1: the entry's caller is not below 64");
    assert_eq!(by_locks.verdict(), Verdict::Illegal { entry: 4, rule: Rule::Locks });
    assert_eq!(by_commits.verdict(), Verdict::Legal { commits: 2, running: 1 });
    Ok(())
}
