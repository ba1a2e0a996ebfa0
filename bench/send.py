#!/usr/bin/env python3
"""Measures `sieved send` with real servers beside `sendmail` a row, and prints tables of docs/PERFORMANCE.md.

  bench/send.py [--sieved SIEVED] [--rows N,N,..] [PART ..]       SIEVED: the program, crates/sieved/out/sieved where none is named

The parts: postfix, dovecot, sendmail, waits, memory; without a word, all. It needs python3; `memory` the command `time`; `postfix` and `sendmail` need root and
Debian's postfix, `dovecot` root and Debian's dovecot-submissiond.

  postfix    1,000, 3,000 and 10,000 rows of 1 kB handed to Postfix's smtpd, whose transport discards what it takes
  dovecot    the same to Dovecot's submission service, which hands each on to a server that counts. It is run for a user that is known
             (as `doveadm exec` does), since a connection to its port has to log in before MAIL, which `send` doesn't
  sendmail   a process of `sendmail` a row with the same message, to the same Postfix
  waits      a run over 500, 1,500 and 5,000 rows of which all wait, and with one more that is due
  memory     the most memory of a run that sends ten rows of 1 kB, or one of 30 MB, less that of `folders` over the same store

What arrives is counted: each row once. The store is in the folder for temporary files. Other processes are not looked for: run it alone.
"""
import os, sqlite3, sys, tempfile, time
from contextlib import closing
from measure import head, least, program_of, ran, row, weighed, words_of
from managesieve import Store
from smtpservers import Dovecot, Postfix, Sink

ROWS = [1_000, 3_000, 10_000]
MESSAGE = b"From: alice@example.org\r\nTo: carol@example.net\r\nSubject: Lunch\r\nMessage-ID: <%d@example.org>\r\n\r\n" + (b"x" * 76 + b"\r\n") * 12


def put(store, count, message=None):
    """Rows that no script makes, in the queue of alice."""
    store.run("folders", "--wait", "alice")
    with closing(sqlite3.connect(store.file)) as db, db:
        first = db.execute("SELECT next_out FROM account WHERE name = ?", (b"alice",)).fetchone()[0]
        rows = ((b"alice", number, b"alice@example.org", b"carol@example.net", message or MESSAGE % number) for number in range(first, first + count))
        db.executemany("INSERT INTO outgoing VALUES (?, ?, 1, ?, ?, ?)", rows)
        db.execute("UPDATE account SET next_out = ? WHERE name = ?", (first + count, b"alice"))
    store.run("folders", "--wait", "alice")


def send(store, place, *words):
    """A run of `send`: its last line, and how many seconds it took."""
    run = ran(store.words("send", "--smtp", place, *words))
    return last_line(run), run.ms / 1000


def last_line(run):
    return (run.out.decode("latin-1").splitlines() or [""])[-1]


def served(sieved, kind):
    """Rows that are handed to a server."""
    with tempfile.TemporaryDirectory() as room:
        server = kind(room)
        try:
            if kind is Dovecot:
                print(f"{server.name} without a login: {server.refuses()}", flush=True)
            head(f"Rows handed to {server.name}", "s", "ms a row", "rows a second", "store, MB")
            for count in ROWS:
                store = Store(["alice"], sieved)
                put(store, count)
                server.forget()
                size = os.path.getsize(store.file) / 1e6
                line, took = send(store, server.place)
                came = server.arrived(count)
                if line != f"sent {count}, wait 0" or came != count:
                    raise SystemExit(f"{line!r}, and {came} arrived")
                row(count, f"{took:.1f}", f"{1000 * took / count:.2f}", f"{count / took:.0f}", f"{size:.1f}")
        finally:
            server.stop()


def sendmail(sieved):
    with tempfile.TemporaryDirectory() as room:
        server, count = Postfix(room), 300
        try:
            began = time.perf_counter()
            for number in range(count):
                words = ["/usr/sbin/sendmail", "-C", f"{room}/etc", "-i", "-f", "alice@example.org", "--", "carol@example.net"]
                ran(words, MESSAGE % number)
            took = time.perf_counter() - began
            came = server.arrived(count)
            print(f"`sendmail` a row, {count} of them: {1000 * took / count:.2f} ms a row, {count / took:.0f} a second; {came} arrived", flush=True)
        finally:
            server.stop()


def waits(sieved):
    """All rows wait, as the text beside the store says; and one more that is due."""
    head("Rows, of which all wait", "a run, s", "with one more row that is due, s", "an open of the store, s")
    for count in [rows // 2 for rows in ROWS]:
        store, sink = Store(["alice"], sieved), Sink()
        put(store, count)
        with open(f"{store.file}.send.waits", "w") as file:
            file.writelines(f"{int(time.time()) + 86_400} 1 {number} alice\n" for number in range(1, count + 1))
        place = f"127.0.0.1:{sink.port}"
        line, none = send(store, place)
        assert line == "sent 0, wait 0", line
        put(store, 1)
        line, one = send(store, place)
        assert line == "sent 1, wait 0", line
        opened = least(store.words("folders", "--wait", "alice"), runs=5) / 1000
        row(count, f"{none:.3f}", f"{one:.3f}", f"{opened:.3f}")


def memory(sieved):
    head("Rows", "store, MB", "`folders`, MB", "`send`, MB", "more, MB", "the largest message, MB")
    large = b"Subject: large\r\n\r\n" + (b"x" * 76 + b"\r\n") * (30_000_000 // 78)
    for name, count, message in (("ten of 1 kB", 10, None), ("1,000 of 1 kB", 1_000, None), ("one of 30 MB", 1, large)):
        store, sink = Store(["alice"], sieved), Sink()
        put(store, count, message)
        size = os.path.getsize(store.file) / 1e6
        rest = weighed(store.words("folders", "alice")).mib
        run = weighed(store.words("send", "--smtp", f"127.0.0.1:{sink.port}"))
        assert last_line(run) == f"sent {count}, wait 0", run.out
        row(name, *(f"{figure:.1f}" for figure in (size, rest, run.mib, run.mib - rest, len(message or MESSAGE) / 1e6)))


PARTS = {"postfix": lambda sieved: served(sieved, Postfix), "dovecot": lambda sieved: served(sieved, Dovecot), "sendmail": sendmail, "waits": waits, "memory": memory}


def main():
    global ROWS
    sieved, words = program_of(words_of(__doc__))
    if words[:1] == ["--rows"]:
        ROWS, words = [int(text) for text in words[1].split(",")], words[2:]
    if set(words) - set(PARTS):
        sys.exit(f"no part: {' '.join(sorted(set(words) - set(PARTS)))}")
    for name in words or PARTS:
        PARTS[name](sieved)


if __name__ == "__main__":
    main()
