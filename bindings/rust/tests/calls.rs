use boostmap::{Entry, Error, Holder, Judge, Map, Operation, Verdict};
use std::sync::{Arc, Mutex};
use std::thread;

#[test]
fn a_transaction_commits_or_leaves_nothing() -> Result<(), Error> {
    let mut map = Map::new(2, 16, 64)?;
    map.transact(0, |t| {
        assert_eq!(t.put(1, 10)?, None);
        let level = t.save()?;
        assert_eq!(t.take(1)?, Some(10));
        t.back(level)?;
        assert_eq!(t.put_if(1, None, 11)?, Some(10));
        assert_eq!(t.put_if(1, Some(10), 12)?, Some(10));
        assert_eq!((t.contains_key(1)?, t.contains_key(2)?, t.number()), (true, false, 1));
        Ok::<_, Error>(())
    })?;
    let failed = map.transact(0, |t| t.put(2, 20).and(Err::<(), _>(Error::Limit)));
    assert_eq!(failed, Err(Error::Limit));
    drop(map.begin(0)?);
    assert_eq!(map.count()?, 1);
    assert_eq!(map.begin(0)?.commit()?, 2);
    map.help(0, 1)
}

#[test]
fn the_pairs_are_those_that_stand() -> Result<(), Error> {
    let mut map = Map::new(1, 16, 64)?;
    assert_eq!(map.items()?, []);
    map.transact(0, |t| (0..5).try_for_each(|key| t.put(key, 10 * key).map(drop)))?;
    let mut pairs = map.items()?;
    pairs.sort();
    assert_eq!(pairs, [(0, 0), (1, 10), (2, 20), (3, 30), (4, 40)]);
    Ok(())
}

#[test]
fn the_history_of_a_map_is_legal() -> Result<(), Error> {
    let mut map = Map::new(2, 16, 64)?;
    map.begin_caller(0)?;
    map.put(0, 1, 10)?;
    map.save(0)?;
    map.put_if(0, 1, Some(10), 11)?;
    map.put_if(0, 2, None, 20)?;
    map.back(0, 1)?;
    map.begin_caller(1)?;
    assert_eq!(map.take(1, 1), Err(Error::Busy(0)));
    assert_eq!(map.trim(), Err(Error::AlreadyOpen));
    map.abort_caller(1)?;
    map.get(0, 2)?;
    map.commit_caller(0)?;
    drop(map.begin(1)?);
    let history = map.history()?;
    let put = Operation::Put { key: 1, value: 10 };
    assert_eq!(history[..3], [Entry::Began(0, 1), Entry::Asked(0, put), Entry::Did(0, None)]);
    assert_eq!(history.len() as u64, map.entries()?);
    for _ in 0..2 {
        let mut judge = Judge::new(16, Holder::Now)?;
        judge.feed_all(&map.history()?)?;
        assert_eq!(judge.verdict(), Verdict::Legal { commits: 1, running: 0 });
        map.trim()?;
    }
    assert_eq!((map.entries()?, map.items()?), (4, vec![(1, 10)]));
    map.trim_above(1)?;
    for _ in 0..100 {
        map.transact(0, |t| t.put(1, 10))?;
    }
    assert!(map.entries()? < 20);
    Ok(())
}

#[test]
fn misuse_is_an_error() -> Result<(), Error> {
    let mut map = Map::new(2, 16, 64)?;
    assert_eq!(map.put(0, 1, 1), Err(Error::NotOpen));
    assert_eq!(map.begin_caller(9), Err(Error::NoSuchCaller));
    assert_eq!(map.help(2, 1), Err(Error::NoSuchCaller));
    map.begin_caller(0)?;
    assert_eq!(map.begin_caller(0), Err(Error::AlreadyOpen));
    assert_eq!(map.back(0, 1), Err(Error::NoSuchLevel));
    map.put(0, 5, 5)?;
    map.begin_caller(1)?;
    assert_eq!(map.get(1, 5), Err(Error::Busy(0)));
    assert_eq!(map.commit_caller(1), Err(Error::Leaving));
    map.abort_caller(1)?;
    assert_eq!(map.commit_caller(0)?, 1);
    assert!(matches!(Map::new(65, 1, 2), Err(Error::Limit)));
    assert_eq!(Error::Busy(3).to_string(), "caller 3 holds the key's stripe");
    Ok(())
}

#[test]
fn a_panic_aborts() {
    let map = Arc::new(Mutex::new(Map::new(1, 16, 64).unwrap()));
    let inside = map.clone();
    let panicked = thread::spawn(move || {
        let mut map = inside.lock().unwrap();
        let _ = map.transact::<(), Error>(0, |t| {
            t.put(1, 1)?;
            panic!("in the job")
        });
    })
    .join();
    assert!(panicked.is_err());
    let mut map = map.lock().unwrap_or_else(|poisoned| poisoned.into_inner());
    assert_eq!(map.count(), Ok(0));
    assert_eq!(map.begin_caller(0), Ok(2));
}

#[test]
fn threads_keep_the_sum() {
    const KEYS: u64 = 16;
    let map = Arc::new(Mutex::new(Map::new(4, 16, 64).unwrap()));
    map.lock().unwrap().transact(0, |t| (0..KEYS).try_for_each(|k| t.put(k, 100).map(drop))).unwrap();
    let threads: Vec<_> = (0..4)
        .map(|me| {
            let map = map.clone();
            thread::spawn(move || {
                for i in 0..5000_u64 {
                    let (from, to) = ((i * 7 + me) % KEYS, (i * 11 + 3 * me + 1) % KEYS);
                    map.lock()
                        .unwrap()
                        .transact(me, |t| {
                            let has = t.get(from)?.unwrap_or(0);
                            t.put(from, has.saturating_sub(1))?;
                            let had = t.get(to)?.unwrap_or(0);
                            t.put(to, had + has.min(1)).map(drop)
                        })
                        .unwrap();
                }
            })
        })
        .collect();
    for thread in threads {
        thread.join().unwrap();
    }
    let sum: Result<u64, Error> =
        map.lock().unwrap().transact(0, |t| (0..KEYS).try_fold(0, |sum, k| Ok(sum + t.get(k)?.unwrap_or(0))));
    assert_eq!(sum, Ok(100 * KEYS));
}
