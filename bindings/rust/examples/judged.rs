//! Four threads move money between two accounts, and the program has its own run judged.
use boostmap::{Error, Holder, Host, Judge, Keep, Opening, Verdict};
use std::thread;

fn main() -> Result<(), Error> {
    let mut callers = Opening { callers: 4, keep: Keep::Entries, ..Opening::default() }.open()?;
    let mut host = Host::of(&mut callers)?;
    thread::scope(|scope| {
        for mut caller in callers {
            scope.spawn(move || {
                for _ in 0..100 {
                    let moved = caller.transact(|t| {
                        t.get_or_put(1, 400)?;
                        t.add(1, -1)?;
                        t.add(2, 1)
                    });
                    moved.unwrap();
                }
            });
        }
    });

    let mut judge = Judge::new(64, Holder::Begun)?;
    judge.feed_all(&host.history()?)?;
    match judge.verdict() {
        Verdict::Legal { commits, .. } => println!("legal, {commits} commits"),
        illegal => println!("{illegal:?}"),
    }
    Ok(())
}
