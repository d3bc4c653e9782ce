"""Four threads move money between two accounts, and the program has its own run judged."""
import threading

from boostmap import Host, Judge, open_striped


def moves(caller):
    """Moves 1 from account 1 to account 2, a hundred times."""
    with caller:
        for _ in range(100):
            caller.transact(lambda t: (t.get_or_put(1, 400), t.add(1, -1), t.add(2, 1)))


callers = open_striped(callers=4, stripes=64, keep="entries")
host = Host(callers)
threads = [threading.Thread(target=moves, args=(caller,)) for caller in callers]
for thread in threads:
    thread.start()
for thread in threads:
    thread.join()

judge = Judge(stripes=64, begun=True)
judge.feed_all(host.history())
verdict = judge.verdict()
print("legal," if verdict.is_legal else "illegal,", verdict.commits, "commits")
