"""Moves 30 from account 1 to account 2, and fails to move 100 back."""
from boostmap import open_striped


class TooLittle(Exception):
    """The account has less than is to be moved."""


def transfer(accounts, source, target, amount):
    """Moves an amount in one transaction, and returns whether it was moved."""

    def moves(t):
        balance = t.get(source) or 0
        if balance < amount:
            raise TooLittle  # the transaction aborts
        t.put(source, balance - amount)
        t.add(target, amount)

    try:
        accounts.transact(moves)
    except TooLittle:
        return False
    return True


accounts, = open_striped(callers=1, stripes=64)
accounts.put_all({1: 100, 2: 50})
print("moved 30:", "yes" if transfer(accounts, 1, 2, 30) else "no")
print("moved 100:", "yes" if transfer(accounts, 2, 1, 100) else "no")
print(f"1 has {accounts.get(1)}, 2 has {accounts.get(2)}")
