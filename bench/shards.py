#!/usr/bin/env python3
"""Draws users and their mail, divides them over store machines, and prints load, imbalance and moves; one machine is lost then. Beside it, how
many machines a number of users needs, by the figures of one of them (docs/PERFORMANCE.md), and what the front's table costs.

  bench/shards.py [--users N] [--machines M] [--seed S]        1,000,000 users on 100 machines where nothing is said

It runs neither sieved nor a mail server, and takes some ten seconds. What a user gets a day is drawn from a Pareto distribution (a few users
have most of the mail), the octets that a store keeps of a user from a log-normal one. The same seed gives the same lines.
"""
import argparse, hashlib, heapq, random, sqlite3, statistics, sys, tempfile, time
from measure import head, row

# What one store machine does, measured (docs/PERFORMANCE.md): deliveries of 8 kB a second over 20 connections, logins, scripts put; milliseconds
# that an open takes for a megabyte of the store; seconds that a move takes (tests/cluster.py).
DELIVERIES, LOGINS, UPLOADS, OPEN_MS, MOVE_SECONDS = 3_149, 313, 3_080, 4.0, 2.0
# A run of `send` each ten seconds opens the store, and the daemon opens it again. At most so much of the time is to go into that.
OPENS_SHARE = 0.04
# What a user has: messages a day, how much busier the busiest hour is, logins a day, scripts put a day.
A_DAY, BUSY, LOGINS_A_DAY, UPLOADS_A_DAY = 20, 5, 10, 0.05
# Octets of a store for a user whose mail has moved on: account, scripts, moments of answers (measured: 180 octets each).
OCTETS = 4_800
HEAVY = 1.3


def drawn(count, draw):
    """Of each user the messages a day and the octets in a store."""
    scale = A_DAY * (HEAVY - 1) / HEAVY
    messages = [min(scale * draw.paretovariate(HEAVY), 20_000) for _ in range(count)]
    octets = [OCTETS * draw.lognormvariate(-0.5, 1) for _ in range(count)]
    return messages, octets


def by_name(user, machines):
    return int.from_bytes(hashlib.sha256(b"user%d" % user).digest()[:8], "big") % machines


def loads(places, values, machines):
    sums = [0.0] * machines
    for place, value in zip(places, values):
        sums[place] += value
    return sums


def balanced(places, values, machines, limit):
    """Users move, the one with most mail first, from the machine with most to the one with least, until none has more than `limit` times the mean. Counts moves."""
    sums, places = loads(places, values, machines), list(places)
    mean, moves = sum(sums) / machines, 0
    heaviest = [[] for _ in range(machines)]
    for user, place in enumerate(places):
        heaviest[place].append((-values[user], user))
    for heap in heaviest:
        heapq.heapify(heap)
    for source in sorted(range(machines), key=lambda it: -sums[it]):
        kept = []
        while sums[source] > limit * mean and heaviest[source]:
            weight, user = heapq.heappop(heaviest[source])
            target = min(range(machines), key=lambda it: sums[it])
            if sums[target] - weight > limit * mean:
                kept.append((weight, user))
                continue
            sums[source] += weight
            sums[target] -= weight
            places[user] = target
            moves += 1
    return places, moves


def told(how, sums, moves, users):
    mean = statistics.fmean(sums)
    ranked = sorted(sums)
    second = BUSY / 86_400
    busiest = (mean, ranked[len(ranked) * 99 // 100 - 1], ranked[-1])
    row(how, *(f"{load * second:.1f}" for load in busiest), f"{ranked[-1] / mean:.2f}", f"{moves:,}", f"{100 * moves / users:.2f} %")


def simulate(users, machines, seed):
    draw = random.Random(seed)
    messages, octets = drawn(users, draw)
    print(f"{users:,} users on {machines} machines; of all mail the 1 % of users with most have {100 * sum(sorted(messages)[-users // 100:]) / sum(messages):.0f} %\n")
    head("Deliveries a second in the busiest hour", "mean", "99th of 100 machines", "greatest", "greatest / mean", "users who move", "of all")
    places = [by_name(user, machines) for user in range(users)]
    told("by a hash of the name", loads(places, messages, machines), 0, users)
    in_turn = [user % machines for user in range(users)]
    told("the next machine in turn", loads(in_turn, messages, machines), 0, users)
    even, moves = balanced(in_turn, messages, machines, 1.05)
    sums = loads(even, messages, machines)
    told("and moved until none has 5 % over the mean", sums, moves, users)
    lost = max(range(machines), key=lambda it: sums[it])
    twice = [sums[it] for it in range(machines) if it != lost]
    twice[0] += sums[lost]
    told("one is lost, and a machine that has its replica serves both", twice, 0, users)
    gone = [user for user in range(users) if even[user] == lost]
    others = [it for it in range(machines) if it != lost]
    for number, user in enumerate(gone):
        even[user] = others[number % len(others)]
    after = loads(even, messages, machines)
    told("and its users move to all others in turn", [after[it] for it in others], len(gone), users)
    sizes = loads(in_turn, octets, machines)
    print(f"\nA store has {statistics.fmean(sizes) / 1e6:.1f} MB in the mean, {max(sizes) / 1e6:.1f} at most; an open takes {OPEN_MS * max(sizes) / 1e6:.0f} ms at most.")
    print(f"Users of the lost machine move one after the other in {len(gone) * MOVE_SECONDS / 3600:.1f} hours, four at a time in {len(gone) * MOVE_SECONDS / 14_400:.1f}.")


def machines_for(users):
    """How many machines each of a machine's limits asks for."""
    opens = OPENS_SHARE * 10_000 / 2 / OPEN_MS * 1e6 / OCTETS
    busy = BUSY / 86_400
    return {"the size of the store": users / opens, "deliveries": users * A_DAY * busy / DELIVERIES, "logins": users * LOGINS_A_DAY * busy / LOGINS,
            "scripts put": users * UPLOADS_A_DAY * busy / UPLOADS}


def reckon():
    print()
    head("Users", "machines by the size of the store", "by logins", "by deliveries", "by scripts put", "deliveries a second, all")
    for users in 10 ** 4, 10 ** 6, 10 ** 8:
        wanted = machines_for(users)
        cells = [f"{wanted[name]:,.2f}" for name in ("the size of the store", "logins", "deliveries", "scripts put")]
        row(f"{users:,}", *cells, f"{users * A_DAY * BUSY / 86_400:,.0f}")


def front(counts=(10 ** 4, 10 ** 6)):
    """What a look into the front's table costs, with SQLite itself."""
    print()
    head("Users in the front's table", "MB", "a look, us", "a user moves, ms")
    for count in counts:
        with tempfile.TemporaryDirectory() as room:
            table = sqlite3.connect(f"{room}/users.db")
            table.execute("CREATE TABLE user (name TEXT PRIMARY KEY, machine TEXT NOT NULL, hash TEXT NOT NULL, secret TEXT NOT NULL, moves INTEGER NOT NULL DEFAULT 0)")
            rows = ((f"user{n}", f"s{n % 100}", "{SHA512-CRYPT}" + "x" * 106, "y" * 32, 0) for n in range(count))
            table.executemany("INSERT INTO user VALUES (?, ?, ?, ?, ?)", rows)
            table.commit()
            draw, began = random.Random(3), time.perf_counter()
            for _ in range(20_000):
                table.execute("SELECT machine, moves FROM user WHERE name = ?", (f"user{draw.randrange(count)}",)).fetchone()
            look = (time.perf_counter() - began) / 20_000
            began = time.perf_counter()
            for n in range(50):
                table.execute("UPDATE user SET moves = 1 WHERE name = ?", (f"user{draw.randrange(count)}",))
                table.commit()
            move = (time.perf_counter() - began) / 50
            size = table.execute("SELECT page_count * page_size FROM pragma_page_count(), pragma_page_size()").fetchone()[0]
            table.close()
        row(f"{count:,}", f"{size / 1e6:.1f}", f"{look * 1e6:.0f}", f"{move * 1e3:.1f}")


def main():
    words = argparse.ArgumentParser(description=__doc__.split("\n")[0])
    words.add_argument("--users", type=int, default=1_000_000)
    words.add_argument("--machines", type=int, default=100)
    words.add_argument("--seed", type=int, default=1)
    asked = words.parse_args()
    if asked.machines < 2 or asked.users < asked.machines:
        sys.exit("two machines at least, and no fewer users than machines")
    simulate(asked.users, asked.machines, asked.seed)
    reckon()
    front()


if __name__ == "__main__":
    main()
