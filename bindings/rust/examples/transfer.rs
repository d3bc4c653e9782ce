//! Moves 30 from account 1 to account 2, and fails to move 100 back.
use boostmap::{open_striped, Caller, Error};

fn transfer(accounts: &mut Caller, from: u64, to: u64, sum: i64) -> Result<bool, Error> {
    let moved = accounts.transact(|t| {
        t.add(from, -sum)?; // `Overflow` if the account has less: the transaction aborts
        t.add(to, sum)
    });
    match moved {
        Err(Error::Overflow) => Ok(false),
        moved => moved.map(|_| true),
    }
}

fn main() -> Result<(), Error> {
    let yes_or_no = |moved| if moved { "yes" } else { "no" };
    let mut accounts = open_striped(1, 64)?.remove(0);
    accounts.put_all([(1, 100), (2, 50)])?;
    println!("moved 30: {}", yes_or_no(transfer(&mut accounts, 1, 2, 30)?));
    println!("moved 100: {}", yes_or_no(transfer(&mut accounts, 2, 1, 100)?));
    let (one, two) = (accounts.get(1)?, accounts.get(2)?);
    println!("1 has {}, 2 has {}", one.unwrap_or(0), two.unwrap_or(0));
    Ok(())
}
