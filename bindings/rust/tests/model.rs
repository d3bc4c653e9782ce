//! The striped map beside a model, panics and errors at every call, and judged runs of threads.
use boostmap::{
    open_striped, Caller, CallerTransaction, Counts, Entry, Error, Holder, Host, Judge, Keep, Opening, Operation, Ran,
    Rule, Verdict,
};
use std::collections::BTreeMap;
use std::panic::{catch_unwind, resume_unwind, AssertUnwindSafe};
use std::thread;

type Contents = BTreeMap<u64, u64>;

struct Draw(u64);

impl Draw {
    fn below(&mut self, end: u64) -> u64 {
        self.0 = self.0.wrapping_mul(6_364_136_223_846_793_005).wrapping_add(1_442_695_040_888_963_407);
        (self.0 >> 33) % end
    }
}

fn recorded(callers: u64, stripes: u64) -> Result<Vec<Caller>, Error> {
    Opening { callers, stripes, keep: Keep::Entries, ..Opening::default() }.open()
}

fn judged(entries: &[Entry], stripes: u64) -> Result<Verdict, Error> {
    let mut judge = Judge::new(stripes, Holder::Begun)?;
    judge.feed_all(entries)?;
    Ok(judge.verdict())
}

fn set(model: &mut Contents, key: u64, value: Option<u64>) {
    match value {
        Some(value) => model.insert(key, value),
        None => model.remove(&key),
    };
}

fn items(model: &Contents) -> Vec<(u64, u64)> {
    model.iter().map(|(&key, &value)| (key, value)).collect()
}

/// Makes a random call on the map and on its model.
fn call(t: &mut CallerTransaction<'_>, model: &mut Contents, draw: &mut Draw) -> Result<(), Error> {
    let key = draw.below(40);
    let value = if draw.below(8) > 0 { draw.below(4) } else { u64::MAX - draw.below(2) };
    let had = model.get(&key).copied();
    let expected = if draw.below(2) > 0 { had } else { Some(draw.below(4)) };
    let delta = draw.below(9) as i64 - 4;
    match draw.below(8) {
        0 => {
            assert_eq!(t.put(key, value)?, had);
            set(model, key, Some(value));
        }
        1 => {
            assert_eq!(t.take(key)?, had);
            set(model, key, None);
        }
        2 => {
            assert_eq!(t.put_if(key, expected, value)?, had);
            if had == expected {
                set(model, key, Some(value));
            }
        }
        3 => match had.unwrap_or(0).checked_add_signed(delta) {
            None => assert_eq!(t.add(key, delta), Err(Error::Overflow)),
            Some(sum) => {
                assert_eq!(t.add(key, delta)?, had);
                set(model, key, Some(sum));
            }
        },
        4 => {
            assert_eq!(t.get_or_put(key, value)?, had.unwrap_or(value));
            set(model, key, had.or(Some(value)));
        }
        5 => {
            let flip = |is: Option<u64>| is.map_or(Some(value), |_| None);
            assert_eq!(t.update(key, flip)?, had);
            set(model, key, flip(had));
        }
        6 if draw.below(30) == 0 => call_on_all(t, model, draw)?,
        _ => assert_eq!((t.get(key)?, t.contains_key(key)?), (had, had.is_some())),
    }
    Ok(())
}

/// The pairs of the model in one of 7 stripes.
fn page(model: &Contents, stripe: u64) -> Vec<(u64, u64)> {
    items(model).into_iter().filter(|(key, _)| key % 7 == stripe).collect()
}

fn call_on_all(t: &mut CallerTransaction<'_>, model: &mut Contents, draw: &mut Draw) -> Result<(), Error> {
    match draw.below(5) {
        0 => {
            assert_eq!(t.clear()?, model.len() as u64);
            model.clear();
        }
        1 => {
            t.put_all([(3, 30), (4, 40)])?;
            model.extend([(3, 30), (4, 40)]);
        }
        2 => assert_eq!(t.count()?, model.len() as u64),
        3 => {
            let key = draw.below(40);
            assert_eq!(t.page(key)?, page(model, key % 7));
        }
        _ => assert_eq!(t.items()?, items(model)),
    }
    Ok(())
}

/// A run of drawn operations. One that is strict ends at the first `PutIf` that misses, and then changes
/// nothing. Returns how many operations it had.
fn run(caller: &mut Caller, model: &mut Contents, draw: &mut Draw) -> Result<u64, Error> {
    let (is_strict, mut is_missed, mut changed) = (draw.below(2) > 0, false, model.clone());
    let (mut operations, mut due) = (Vec::new(), Vec::new());
    for _ in 0..draw.below(8) {
        let (key, value) = (draw.below(40), draw.below(4));
        let had = changed.get(&key).copied();
        let expected = if draw.below(4) > 0 { had } else { Some(draw.below(4)) };
        if !is_missed {
            due.push(had);
        }
        operations.push(match draw.below(4) {
            0 => Operation::Get { key },
            1 => {
                set(&mut changed, key, None);
                Operation::Take { key }
            }
            2 => {
                set(&mut changed, key, Some(value));
                Operation::Put { key, value }
            }
            _ => {
                if had == expected {
                    set(&mut changed, key, Some(value));
                } else {
                    is_missed |= is_strict;
                }
                Operation::PutIf { key, expected, value }
            }
        });
    }
    if is_strict {
        let due = if is_missed { Ran::Missed(due) } else { Ran::Committed(due) };
        assert_eq!(caller.run_strict(&operations), Ok(due));
    } else {
        assert_eq!(caller.run(&operations), Ok(due));
    }
    if !is_missed {
        *model = changed;
    }
    Ok(operations.len() as u64)
}

/// A random transaction that commits, or ends in another way; returns how many calls it had.
fn transaction(caller: &mut Caller, model: &mut Contents, draw: &mut Draw) -> Result<u64, Error> {
    let (calls, ending) = (1 + draw.below(9), draw.below(6));
    let mut changed = model.clone();
    let ended = caller.transact(|t| {
        call(t, &mut changed, draw)?;
        let (level, before) = (t.save()?, changed.clone());
        for _ in 0..calls {
            call(t, &mut changed, draw)?;
        }
        match ending {
            0 => return Err(Error::Limit),
            1 => t.roll_back(),
            2 => {
                t.back(level)?;
                changed.clone_from(&before);
                call(t, &mut changed, draw)?;
            }
            _ => {}
        }
        Ok(())
    });
    assert_eq!(ended, if ending == 0 { Err(Error::Limit) } else { Ok(()) });
    if ending > 1 {
        *model = changed;
    }
    Ok(calls + 1)
}

#[test]
fn calls_beside_a_model() -> Result<(), Error> {
    let (mut callers, mut model, mut draw) = (recorded(2, 7)?, Contents::new(), Draw(1));
    let (mut host, mut made) = (Host::of(&mut callers)?, 0);
    while made < 100_000 {
        let caller = &mut callers[draw.below(2) as usize];
        made += transaction(caller, &mut model, &mut draw)?;
        let (key, value) = (draw.below(40), draw.below(10));
        let had = model.insert(key, value);
        assert_eq!(caller.put(key, value), Ok(had));
        assert_eq!((caller.add(key, 1), caller.contains_key(key)), (Ok(Some(value)), Ok(true)));
        set(&mut model, key, Some(value + 1));
        made += 3 + run(caller, &mut model, &mut draw)?;
        if draw.below(100) == 0 {
            assert_eq!(caller.pages().len(), 7);
            assert!(caller.pages().map(Result::unwrap).eq((0..7).map(|stripe| page(&model, stripe))));
        }
    }
    assert_eq!(callers[0].items()?, items(&model));
    let commits = callers[0].counts().commits + callers[1].counts().commits;
    assert!(callers.iter_mut().all(|caller| caller.counts().aborts > 100 && caller.counts().busy == 0));
    drop(callers);
    let mut entries = host.history()?;
    assert_eq!(judged(&entries, 7)?, Verdict::Legal { commits, running: 0 });
    let is_get = |at: &usize| matches!(entries[*at], Entry::Asked(_, Operation::Get { .. }));
    let forged = (entries.len() / 2..).find(is_get).unwrap() + 1;
    let Entry::Did(caller, _) = entries[forged] else { panic!("a get has a reply") };
    entries[forged] = Entry::Did(caller, Some(12345));
    assert_eq!(judged(&entries, 7)?, Verdict::Illegal { entry: forged as u64, rule: Rule::Replies });
    Ok(())
}

/// Every call that a transaction has, each after `next`, which may panic or fail.
fn every_call(t: &mut CallerTransaction<'_>, mut next: impl FnMut() -> Result<(), Error>) -> Result<(), Error> {
    next()?;
    t.put(1, 100)?;
    next()?;
    t.take(2)?;
    next()?;
    t.put_if(3, Some(30), 31)?;
    next()?;
    t.add(3, -1)?;
    next()?;
    t.get_or_put(8, 80)?;
    let mut inner = Ok(());
    t.update(4, |is| {
        inner = next();
        is.map(|value| value + 1)
    })?;
    inner?;
    let level = t.save()?;
    next()?;
    t.put_all([(5, 50), (6, 60)])?;
    next()?;
    t.back(level)?;
    next()?;
    t.count()?;
    next()?;
    t.page(1)?;
    next()?;
    t.clear()?;
    next()
}

#[test]
fn panics_and_errors_leave_nothing() -> Result<(), Error> {
    const CALLS: u64 = 12;
    let before = [(1, 10), (2, 20), (3, 30), (4, 40)];
    let mut callers = open_striped(2, 7)?;
    callers[0].put_all(before)?;
    for (stop, panics) in (0..CALLS).flat_map(|stop| [(stop, true), (stop, false)]) {
        let ended = catch_unwind(AssertUnwindSafe(|| {
            callers[0].transact(|t| {
                let mut made = 0;
                every_call(t, || {
                    made += 1;
                    match made > stop {
                        true if panics => resume_unwind(Box::new(stop)), // no message, as panic! has one
                        true => Err(Error::Other(7)),
                        false => Ok(()),
                    }
                })
            })
        }));
        match ended {
            Ok(ended) => assert_eq!((panics, ended), (false, Err(Error::Other(7)))),
            Err(payload) => assert_eq!((panics, payload.downcast_ref()), (true, Some(&stop))),
        }
        assert_eq!(callers[1].transact_within(0, |t| t.items())?, before);
    }
    assert_eq!(callers[0].counts(), Counts { commits: 1, aborts: 2 * CALLS, busy: 0 });
    callers[0].transact(|t| every_call(t, || Ok(())))?;
    assert_eq!(callers[1].count()?, 0);
    Ok(())
}

#[test]
fn a_job_rolls_back_with_a_value() -> Result<(), Error> {
    let mut caller = open_striped(1, 7)?.remove(0);
    let value = caller.transact(|t| {
        t.put(1, 10)?;
        t.roll_back();
        t.get(1)
    })?;
    assert_eq!((value, caller.get(1)?), (Some(10), None));
    let mut by_hand = caller.begin()?;
    by_hand.put(1, 10)?;
    by_hand.roll_back();
    assert_eq!(by_hand.commit(), Err(Error::NotOpen));
    std::mem::forget(caller.begin()?);
    assert_eq!(caller.get(1), Err(Error::AlreadyOpen));
    assert_eq!((caller.abort(), caller.abort(), caller.get(1)?), (true, false, None));
    assert_eq!(caller.counts(), Counts { commits: 2, aborts: 3, busy: 0 });
    Ok(())
}

#[test]
fn threads_that_come_and_go_are_judged() -> Result<(), Error> {
    const KEYS: u64 = 10;
    let mut callers = recorded(25, 5)?;
    let mut host = Host::of(&mut callers)?;
    let all: Vec<(u64, u64)> = (0..KEYS).map(|key| (key, 100)).collect();
    callers[0].put_all(&all)?;
    for visitors in callers.chunks_mut(5) {
        thread::scope(|scope| {
            for caller in visitors {
                scope.spawn(move || visit(caller).unwrap());
            }
        });
    }
    assert_eq!(callers[0].items()?.iter().map(|(_, value)| value).sum::<u64>(), 100 * KEYS);
    let commits = callers.iter_mut().map(|caller| caller.counts().commits).sum();
    assert_eq!(host.history(), Err(Error::Missing(1)));
    drop(callers);
    assert_eq!(judged(&host.history()?, 5)?, Verdict::Legal { commits, running: 0 });
    Ok(())
}

/// Moves values between keys, with some panics, and audits the map now and then.
fn visit(caller: &mut Caller) -> Result<(), Error> {
    let mut draw = Draw(caller.number());
    for round in 0..200 {
        let (from, to, panics) = (draw.below(10), draw.below(10), draw.below(10) == 0);
        let moved = catch_unwind(AssertUnwindSafe(|| {
            caller.transact(|t| {
                if t.get(from)?.unwrap_or(0) > 0 {
                    t.add(from, -1)?;
                    if panics {
                        resume_unwind(Box::new("half of a move"));
                    }
                    t.add(to, 1)?;
                }
                Ok::<_, Error>(())
            })
        }));
        match moved {
            Ok(ended) => ended?,
            Err(_) => assert!(panics),
        }
        if round % 20 == 0 {
            assert_eq!(caller.items()?.iter().map(|(_, value)| value).sum::<u64>(), 1000);
        }
    }
    Ok(())
}
