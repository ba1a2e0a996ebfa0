#!/usr/bin/env python3
"""Times failed logins by names that have an account and by names that have none, or had one, or whose account is closed: the time of an
answer doesn't tell which is which.

  tests/logins.py [--sieved SIEVED] [TRIAL ..]       SIEVED: the program, crates/sieved/out/sieved where none is named

The trials: serve, session; without a word, both. Each makes 50 logins with a wrong password of either kind, one of each kind on a
connection, of which either is the first as often. Compared are the two of a connection, since they run on one processor, and these differ:
the median difference is less than a tenth, of the time that the program had the processor and of the time that the client waited. Other
work on the machine makes a client wait and takes the processor's caches, by chance more for one kind: so a trial has five rounds of which
one has to hold. A digest that isn't made is a third of a login, in each round. Prints a line for each trial, a last one that counts them,
and ends with 1 where one failed. `tests/run` runs it. It needs python3 and Linux (/proc/PID/schedstat), and takes some seconds.
"""
import base64, os, sqlite3, statistics, time
import trials
from managesieve import SIEVED, Store, connect, end

KNOWN = ["alice", "bob", "carol-of-accounts", "d"]
UNKNOWN = ["alicf", "bot", "carol-of-account5", "gone", "shut"]
REMOVED, CLOSED = "gone", "shut"
LOGINS = 50
ROUNDS = 5


def processor(pid):
    """For how many seconds the program has had a processor."""
    with open(f"/proc/{pid}/schedstat") as file:
        return int(file.read().split()[0]) / 1e9


def times(client, pid, user):
    """How long the program works, and the client waits, at a login of this user with a wrong password."""
    text = base64.b64encode(b"\0" + user.encode() + b"\0wrong!")
    worked, began = processor(pid), time.perf_counter()
    told = client.ask(b'AUTHENTICATE "PLAIN" "' + text + b'"')
    took = processor(pid) - worked, time.perf_counter() - began
    assert told == [b'NO "Authentication failed."\r\n'], told
    return took


def pairs(greeted):
    """Of each connection what its login by a known name and its login by an unknown one took, by which kind came first; `greeted` gives a
    client, the program's process, and what ends them."""
    told = {True: [], False: []}
    for turn in range(LOGINS):
        logins = [(0, KNOWN[turn % len(KNOWN)]), (1, UNKNOWN[turn % len(UNKNOWN)])]
        client, pid, close = greeted()
        is_known_first = turn // len(KNOWN) % 2 == 1
        taken = {kind: times(client, pid, user) for kind, user in logins[::1 if is_known_first else -1]}
        close()
        told[is_known_first].append((taken[0], taken[1]))
    return told


def difference(told, which):
    """A login's median time, and by how much of it an unknown name's is longer: the median over the connections in which a known name came
    first and the one over the others, halved, so what a first login costs more stands in neither."""
    usual = statistics.median(taken[which] for both in told.values() for pair in both for taken in pair)
    longer = [statistics.median(unknown[which] - known[which] for known, unknown in both) for both in told.values()]
    return usual, sum(longer) / 2 / usual


def compared(greeted):
    rounds = []
    for _ in range(ROUNDS):
        told = pairs(greeted)
        (work, more_work), (wait, more_wait) = difference(told, 0), difference(told, 1)
        rounds.append(f"{work * 1000:.2f} ms of the processor ({more_work:+.1%}), {wait * 1000:.2f} ms in all ({more_wait:+.1%})")
        line = f"{LOGINS} failed logins, by how much those of unknown names take longer: {'; '.join(rounds)}"
        if abs(more_work) < 0.1 and abs(more_wait) < 0.1:
            return line
    raise AssertionError(line)


def serve(store):
    server, port = store.serve()

    def greeted():
        client = connect(port)
        return client, server.pid, client.close

    try:
        return compared(greeted)
    finally:
        end(server)


def session(store):
    def greeted():
        process, client = store.session("--wait")
        return client, process.pid, lambda: end(process)

    return compared(greeted)


TRIALS = {"serve": serve, "session": session}


PROGRAM = [SIEVED]


def a_store():
    """A store with the known names, one whose account was removed, and one whose account is closed, as a move to another machine leaves it."""
    store = Store([*KNOWN, REMOVED, CLOSED], PROGRAM[0])
    store.run("remove", REMOVED)
    with sqlite3.connect(store.file) as base:
        assert base.execute("UPDATE account SET rounds = 0 WHERE name = ?", [CLOSED.encode()]).rowcount == 1
    base.close()
    return store


if __name__ == "__main__":
    trials.main({name: lambda trial=trial: trial(a_store()) for name, trial in TRIALS.items()}, lambda program: PROGRAM.__setitem__(0, program))
