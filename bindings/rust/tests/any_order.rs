use boostmap::{judge_any_order, Entry, Error, Finding, Host, Keep, Link, LinkKind, Opening, Operation, Reason};

type Entries = Vec<Entry>;

fn get(caller: u64, key: u64, reply: Option<u64>) -> Entries {
    vec![Entry::Asked(caller, Operation::Get { key }), Entry::Did(caller, reply)]
}

fn put(caller: u64, key: u64, value: u64, reply: Option<u64>) -> Entries {
    vec![Entry::Asked(caller, Operation::Put { key, value }), Entry::Did(caller, reply)]
}

fn take(caller: u64, key: u64, reply: Option<u64>) -> Entries {
    vec![Entry::Asked(caller, Operation::Take { key }), Entry::Did(caller, reply)]
}

/// A transaction of caller 0.
fn alone(number: u64, parts: &[Entries]) -> Entries {
    [vec![Entry::Began(0, number)], parts.concat(), vec![Entry::Committed(0, number)]].concat()
}

/// Two transactions that are open at the same time, of callers 0 and 1, which commit in this order.
fn both(parts: &[Entries], first: u64) -> Entries {
    let ends = vec![Entry::Committed(first, 1), Entry::Committed(1 - first, 2)];
    [vec![Entry::Began(0, 1), Entry::Began(1, 2)], parts.concat(), ends].concat()
}

/// The finding, with a cycle from the least number on.
fn found(entries: &[Entry]) -> Result<Finding, Error> {
    let mut finding = judge_any_order(entries, false)?;
    if let Finding::NotSerializable(Reason::Cycle(links)) = &mut finding {
        let least = (0..links.len()).min_by_key(|&at| links[at].transaction).unwrap();
        links.rotate_left(least);
    }
    Ok(finding)
}

/// The small histories of docs/VERDICTS.md, with their lines there.
#[test]
fn small_histories_have_these_lines() -> Result<(), Error> {
    let rows = [
        (vec![], "serializable 0 commits"),
        (both(&[get(0, 1, None), get(1, 1, None)], 0), "serializable 2 commits"),
        (
            [vec![Entry::Began(0, 1)], get(0, 1, Some(7)), vec![Entry::Leave(0, None), Entry::Aborted(0)]].concat(),
            "serializable 0 commits",
        ),
        (
            alone(1, &[get(0, 1, Some(7))]),
            "not serializable: transaction 1 read 7 at key 1, which no committed transaction left",
        ),
        (both(&[put(0, 1, 5, None), get(1, 1, Some(5))], 0), "serializable 2 commits"),
        (vec![Entry::Began(0, 2)], "not serializable: entry 0 has the wrong shape"),
        (
            both(&[get(0, 1, None), get(1, 2, None), put(0, 2, 5, None), put(1, 1, 6, None)], 0),
            "not serializable: G2-item, cycle of 2; transaction 1 read none at key 1, which transaction 2 replaced; \
             transaction 2 read none at key 2, which transaction 1 replaced",
        ),
        (
            both(&[put(0, 1, 5, None), put(1, 1, 6, None)], 0),
            "not serializable: lost update, cycle of 2; transaction 1 read none at key 1, which transaction 2 replaced; \
             transaction 2 read none at key 1, which transaction 1 replaced",
        ),
        (
            both(&[put(0, 1, 5, None), put(1, 2, 6, None), get(0, 2, Some(6)), get(1, 1, Some(5))], 0),
            "not serializable: G1c, cycle of 2; transaction 1 left 5 at key 1, which transaction 2 read; \
             transaction 2 left 6 at key 2, which transaction 1 read",
        ),
        (
            alone(1, &[get(0, 1, None), get(0, 1, Some(5))]),
            "not serializable: the replies of transaction 1 contradict one another",
        ),
    ];
    for (entries, line) in rows {
        assert_eq!(found(&entries)?.to_string(), line);
    }
    Ok(())
}

#[test]
fn findings_have_their_members() -> Result<(), Error> {
    let stale = both(&[get(0, 1, None), put(1, 1, 5, None)], 1);
    assert_eq!(found(&stale)?, Finding::Serializable(vec![1, 2]));
    let reads = both(&[get(0, 1, None), get(1, 1, None)], 1);
    assert_eq!(found(&reads)?, Finding::Serializable(vec![2, 1]));
    let link = |transaction, kind, key, value| Link { transaction, kind, key, value };
    let skewed = both(&[get(0, 1, None), put(1, 1, 5, None), put(1, 2, u64::MAX, None), get(0, 2, Some(u64::MAX))], 1);
    let cycle = vec![link(1, LinkKind::Replaced, 1, None), link(2, LinkKind::Read, 2, Some(u64::MAX))];
    let skew = found(&skewed)?;
    assert_eq!(skew, Finding::NotSerializable(Reason::Cycle(cycle)));
    assert!(skew.to_string().starts_with("not serializable: G-single, cycle of 2; "));
    let misshapen = [alone(1, &[]), vec![Entry::Committed(0, 2)]].concat();
    assert_eq!(found(&misshapen)?, Finding::NotSerializable(Reason::Misshapen { entry: 2 }));
    let torn = [alone(1, &[]), alone(2, &[put(0, 1, 5, None), get(0, 1, None)])].concat();
    assert_eq!(found(&torn)?, Finding::NotSerializable(Reason::Torn { transaction: 2 }));
    let unwritten = Reason::Unwritten { transaction: 1, key: 1, value: Some(7) };
    assert_eq!(found(&alone(1, &[get(0, 1, Some(7))]))?, Finding::NotSerializable(unwritten));
    // 3 comes after 1 and before 2, and there key 1 has 5.
    let first = alone(1, &[put(0, 1, 5, None), put(0, 2, 6, None)]);
    let second = alone(2, &[take(0, 1, Some(5)), put(0, 2, 7, Some(6))]);
    let third = alone(3, &[get(0, 1, None), get(0, 2, Some(6))]);
    let impossible = found(&[first, second, third].concat())?;
    assert_eq!(impossible, Finding::NotSerializable(Reason::Impossible { transaction: 3, key: 1, value: None }));
    let line = "not serializable: transaction 3 read none at key 1, which no serial order gives";
    assert_eq!(impossible.to_string(), line);
    let puts: Entries = (1..=3).flat_map(|number| alone(number, &[put(0, 1, 5, None)])).collect();
    let undecided = found(&[puts, alone(4, &[take(0, 1, Some(5))])].concat())?;
    assert_eq!(undecided, Finding::Undecided { key: 1, value: None, writers: vec![4] });
    assert_eq!(undecided.to_string(), "undecided key 1 value none: transactions 4");
    assert_eq!(judge_any_order(&[Entry::Began(0, 1), Entry::Began(64, 2)], false), Err(Error::NoEntry));
    Ok(())
}

/// 2 began after 1 had committed, and read the state before it.
#[test]
fn an_old_state_is_not_strictly_serializable() -> Result<(), Error> {
    let second = [vec![Entry::Began(7, 2)], get(7, 1, None), vec![Entry::Committed(7, 2)]].concat();
    let entries = [alone(1, &[put(0, 1, 5, None)]), second].concat();
    assert_eq!(judge_any_order(&entries, false)?, Finding::Serializable(vec![2, 1]));
    let finding = judge_any_order(&entries, true)?;
    let Finding::NotSerializable(Reason::Cycle(links)) = &finding else { panic!("{finding:?}") };
    let began = Link { transaction: 1, kind: LinkKind::Began, key: 0, value: None };
    let replaced = Link { transaction: 2, kind: LinkKind::Replaced, key: 1, value: None };
    assert!(*links == [began, replaced] || *links == [replaced, began]);
    let line = finding.to_string();
    assert!(line.starts_with("not serializable: G-single-realtime, cycle of 2; transaction "), "{line}");
    assert!(line.contains("; transaction 1 committed before transaction 2 began"), "{line}");
    Ok(())
}

#[test]
fn the_history_of_a_map_is_serializable() -> Result<(), Error> {
    let mut callers = Opening { callers: 2, keep: Keep::Entries, ..Opening::default() }.open()?;
    let mut host = Host::of(&mut callers)?;
    for i in 1..=20 {
        callers[i % 2].put(1, i as u64)?;
        callers[0].begin()?.put(2, 1)?; // is taken back
    }
    drop(callers);
    let mut entries = host.history()?;
    assert_eq!(judge_any_order(&entries, false)?, Finding::Serializable((0..20).map(|i| 2 * i + 1).collect()));
    entries.extend([Entry::Began(0, 41), Entry::Asked(0, Operation::Get { key: 1 }), Entry::Did(0, Some(19))]);
    assert!(matches!(judge_any_order(&entries, false)?, Finding::Serializable(order) if order.len() == 20));
    entries.push(Entry::Committed(0, 21));
    // 19 was there between the last two puts.
    let order = (0..19).map(|i| 2 * i + 1).chain([41, 39]).collect();
    assert_eq!(judge_any_order(&entries, false)?, Finding::Serializable(order));
    Ok(())
}
