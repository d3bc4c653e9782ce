//! Callers that other callers make.
use boostmap::{open_striped, Caller, Counts, Error, Keep, Opening};
use std::collections::HashSet;
use std::{fs, mem, thread};

#[test]
fn a_transaction_continues_and_the_map_lives() -> Result<(), Error> {
    let how = Opening { callers: 2, keep: Keep::Commits, ..Opening::default() };
    let mut callers = how.open()?;
    let mut open = callers[0].begin()?;
    open.put(5, 50)?;
    let mut third = open.another()?;
    let mut fourth = third.another()?;
    assert_eq!(fourth.transact_within(0, |t| t.get(5)), Err(Error::Busy(1)));
    assert_eq!(fourth.counts(), Counts { commits: 0, aborts: 0, busy: 1 });
    assert_eq!(open.get(5), Ok(Some(50)));
    drop(open);
    let mut holds = third.begin()?;
    holds.put(6, 60)?;
    let busy = fourth.transact_within(0, |t| t.get(6));
    assert_eq!(holds.commit()?, Some(1));
    assert_eq!(busy, Err(Error::Busy(third.number())));
    assert_eq!(fourth.options()?, callers[1].options()?);
    let numbers: HashSet<u64> = [1, 2, third.number(), fourth.number()].into();
    assert_eq!(numbers.len(), 4);
    drop((callers, third));
    assert_eq!(fourth.another()?.items()?, [(6, 60)]);
    Ok(())
}

#[test]
fn a_map_that_keeps_its_entries_has_65535_callers() -> Result<(), Error> {
    let mut callers = Opening { callers: 1, keep: Keep::Entries, ..Opening::default() }.open()?;
    for number in 2..=65_535 {
        assert_eq!(callers[0].another()?.number(), number);
    }
    assert!(matches!(callers[0].another(), Err(Error::Limit)));
    assert_eq!(callers[0].put(1, 10)?, None);
    Ok(())
}

/// The pages of memory that the process has.
fn resident() -> u64 {
    let statm = fs::read_to_string("/proc/self/statm").unwrap();
    statm.split(' ').nth(1).unwrap().parse().unwrap()
}

#[test]
fn numbers_differ_and_no_memory_stays() -> Result<(), Error> {
    const EACH: usize = 50_000;
    let mut callers = open_striped(2, 16)?;
    let before = resident();
    let make = |caller: &mut Caller| -> Result<Vec<u64>, Error> {
        let mut numbers = Vec::with_capacity(EACH);
        let mut last = caller.another()?;
        for _ in 0..EACH {
            last = last.another()?; // the one before it is dropped
            last.put(numbers.len() as u64 % 8, 1)?;
            numbers.push(last.number());
        }
        Ok(numbers)
    };
    let made: Vec<u64> = thread::scope(|scope| {
        let threads: Vec<_> = callers.iter_mut().map(|caller| scope.spawn(|| make(caller).unwrap())).collect();
        threads.into_iter().flat_map(|thread| thread.join().unwrap()).collect()
    });
    let stays = resident().saturating_sub(before);
    let numbers: HashSet<u64> = made.into_iter().chain([1, 2]).collect();
    assert_eq!(numbers.len(), 2 * EACH + 2);
    assert!(stays < 4096, "{stays} pages"); // 16 MB; that many callers take more than 40
    Ok(())
}

#[test]
fn threads_come_and_go() -> Result<(), Error> {
    const KEYS: u64 = 10;
    let mut first = open_striped(1, 5)?.remove(0);
    let all: Vec<(u64, u64)> = (0..KEYS).map(|key| (key, 100)).collect();
    first.put_all(&all)?;
    for _ in 0..10 {
        thread::scope(|scope| {
            for _ in 0..4 {
                let caller = first.another().unwrap();
                scope.spawn(move || visit(caller).unwrap());
            }
        });
    }
    assert_eq!(first.items()?.iter().map(|(_, value)| value).sum::<u64>(), 100 * KEYS);
    Ok(())
}

/// Moves values between keys, and leaves in a transaction.
fn visit(mut caller: Caller) -> Result<(), Error> {
    for i in 0..200 {
        let (from, to) = ((i * 7 + caller.number()) % 10, (i * 3 + 1) % 10);
        caller.transact(|t| {
            if t.get(from)?.unwrap_or(0) > 0 {
                t.add(from, -1)?;
                t.add(to, 1)?;
            }
            Ok::<_, Error>(())
        })?;
    }
    let mut left = caller.begin()?;
    let _ = left.put(1, 1_000_000); // may be busy
    mem::forget(left); // until the caller is dropped
    Ok(())
}
