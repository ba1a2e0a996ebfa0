#!/usr/bin/env python3
"""Times the words on a queue as whole processes: figures of docs/PERFORMANCE.md.

  bench/queue.py [SIEVED ..]       SIEVED: the program, crates/sieved/out/sieved where none is named; several stand side by side

Queues of 100, 1,000 and 10,000 rows of 8 kB, in memory (/dev/shm): `queue`, one row by its number, the first row taken off, each less
`notices` of a user without anything, which is an open and a close; the least of 15 runs. It needs python3, and for memory the command `time`.
"""
import os, shutil, sqlite3, tempfile
from contextlib import closing
from measure import SIEVED, head, least, row, weighed, words_of
from managesieve import Store

MESSAGE = b"From: bob@example.net\r\nTo: alice@example.org\r\nSubject: Lunch\r\n\r\n" + (b"x" * 76 + b"\r\n") * 104


def filled(sieved, folder, rows):
    store = Store([], sieved)
    store.file = f"{folder}/mail.db"
    store.run("init")
    for user in "alice", "bob":
        store.run("adduser", "--salt", "00" * 16, user, f"{user}@example.org", data=b"secret\n")
    with closing(sqlite3.connect(store.file)) as conn, conn:
        conn.executemany("INSERT INTO outgoing(owner, id, kind, sender, target, message) VALUES (?, ?, 1, ?, ?, ?)",
                         ((b"alice", n, b"bob@example.net", b"c@example.com", MESSAGE) for n in range(1, rows + 1)))
        conn.execute("UPDATE account SET next_out = ? WHERE name = ?", (rows + 1, b"alice"))
    return store


def rows_of(sieved, rows):
    with tempfile.TemporaryDirectory(dir="/dev/shm") as folder:
        store = filled(sieved, folder, rows)
        whole = f"{folder}/whole.db"
        rest, listed, one = store.words("notices", "bob"), store.words("queue", "alice"), store.words("queue", "alice", str(rows // 2))
        opening, base = least(rest), weighed(rest).mib
        shutil.copy(store.file, whole)
        again = ["sh", "-c", 'cp "$0" "$1" && rm -f "$1"-*', whole, store.file]
        figures = [least(listed), least(one), least(store.words("done", "alice", "1"), before=again)]
        most = [weighed(listed).mib, weighed(one).mib]
        row(f"{rows:,}", f"{opening:.1f}", *(f"{max(0, it - opening):.1f}" for it in figures), f"{base:.1f}", *(f"{max(0, it - base):.1f}" for it in most))


def main():
    for sieved in [os.path.abspath(word) for word in words_of(__doc__)] or [SIEVED]:
        print(f"{sieved}\n")
        head("Rows", "An open, ms", "`queue` besides", "`queue` of one row", "`done`", "An open, MB", "`queue` besides", "of one row")
        for rows in (100, 1_000, 10_000):
            rows_of(sieved, rows)


if __name__ == "__main__":
    main()
