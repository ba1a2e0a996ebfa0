#!/usr/bin/env python3
"""Measures an account that leaves one store and enters another, and prints a table of docs/PERFORMANCE.md.

  bench/accounts.py [SIEVED]     SIEVED: the program, crates/sieved/out/sieved where none is named

An account has ten or a hundred messages of 1 MB, or one, two or three of 30 MB, delivered each by a process of its own. `export` and `import` run once
each; time is theirs, and memory is the most that they had.
"""
import os, tempfile
from measure import SALT, head, program_of, ran, row, words_of

SIEVED, _ = program_of(words_of(__doc__))
ACCOUNTS = [("10 messages of 1 MB", 10, 1_000_000), ("100 messages of 1 MB", 100, 1_000_000), ("1 message of 30 MB", 1, 30_000_000),
            ("2 messages of 30 MB", 2, 30_000_000), ("3 messages of 30 MB", 3, 30_000_000)]


def filled(room, count, size):
    """A store in which alice has so many messages."""
    file, text = f"{room}/one.db", f"{room}/message"
    ran([SIEVED, "init", "--db", file])
    ran([SIEVED, "adduser", "--db", file, "--salt", SALT, "alice", "alice@example.org"], b"secret\n")
    for number in range(count):
        with open(text, "wb") as message:
            message.write(b"From: bob@example.net\r\nTo: alice@example.org\r\nSubject: %d\r\n\r\n" % number)
            message.writelines([b"x" * 76 + b"\r\n"] * ((size - 100) // 78))
        with open(text, "rb") as given:
            ran([SIEVED, "deliver", "--db", file, "--from", "bob@example.net", "--to", "alice@example.org", "alice"], given)
    return file


def main():
    head("An account of", "text, MB", "an open: ms", "MB", "`export`: ms", "MB", "`import`: ms", "MB")
    for name, count, size in ACCOUNTS:
        with tempfile.TemporaryDirectory() as room:
            file, other, text = filled(room, count, size), f"{room}/two.db", f"{room}/text"
            opened = ran([SIEVED, "users", "--db", file])
            with open(text, "wb") as told:
                written = ran([SIEVED, "export", "--db", file, "alice"], told=told)
            ran([SIEVED, "init", "--db", other])
            with open(text, "rb") as given:
                read = ran([SIEVED, "import", "--db", other], given)
            with open(f"{room}/again", "wb") as told:
                ran([SIEVED, "export", "--db", other, "alice"], told=told)
            ran(["cmp", text, f"{room}/again"])
            row(name, f"{os.path.getsize(text) / 1e6:.1f}", *(f"{figure:.0f}" for run in (opened, written, read) for figure in (run.ms, run.mib)))


if __name__ == "__main__":
    main()
