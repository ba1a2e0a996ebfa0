#!/usr/bin/env python3
"""What the host's scripts cost a delivery, and prints a table of docs/PERFORMANCE.md.

  bench/host_scripts.py [SIEVED]     SIEVED: the program, crates/sieved/out/sieved where none is named

One user with one script of a rule; messages of 8 kB over one connection of LMTP to `daemon`, with and without `--before`: the script that
docs/OPERATING.md has for spam, and scripts of so many rules that look at the subject. Each is checked, compiled and run at each
delivery. The store is in memory (/dev/shm), so that no disk is measured. The best of three turns of three seconds each.
"""
import os, subprocess, sys, tempfile
from measure import TOP, head, program_of, row, words_of
import managesieve
from beside_dovecot import SCRIPT, deliveries, free_port, urgent, wait_for

TURNS = 3
KINDS = {"none": [], "spam": ["spam"], "a script of 50 rules": [50], "a script of 800 rules": [800], "16 scripts of 50 rules": [50] * 16}


def spam():
    """The script of the page, as it stands there."""
    lines = open(f"{TOP}/docs/OPERATING.md", encoding="utf-8").read().split("\n")
    begun = next(at for at, line in enumerate(lines) if "whole of `/etc/sieved/spam.sieve`" in line)
    start = next(at for at in range(begun, len(lines)) if lines[at].startswith("    "))
    ended = next(at for at in range(start, len(lines)) if lines[at] and not lines[at].startswith("    "))
    return "\n".join(line[4:] for line in lines[start:ended]).rstrip("\n") + "\n"


def text_of(what):
    if what == "spam":
        return spam()
    return 'require "fileinto";\n' + "".join(f'if header :contains "subject" "[list {at}]" {{ fileinto "lists"; }}\n' for at in range(what))


class Host:
    name, user = "sieved", "alice"

    def __init__(self, room, program, kinds):
        self.lmtp, self.sieve = free_port(), free_port()
        db, own = f"{room}/mail.db", f"{room}/own.sieve"
        with open(own, "wb") as file:
            file.write(SCRIPT)
        subprocess.run([program, "init", "--db", db], check=True, stdout=subprocess.DEVNULL)
        subprocess.run([program, "adduser", "--db", db, "alice", "alice@example.org"], input=b"secret\n", check=True, stdout=subprocess.DEVNULL)
        with open(own, "rb") as file:
            subprocess.run([program, "put", "--db", db, "--activate", "alice", "main"], stdin=file, check=True, stdout=subprocess.DEVNULL)
        words = [program, "daemon", "--db", db, "--managesieve", str(self.sieve), "--lmtp", str(self.lmtp), "--quiet"]
        for at, what in enumerate(kinds):
            with open(f"{room}/{at}.sieve", "w") as file:
                file.write(text_of(what))
            words += ["--before", f"{room}/{at}.sieve"]
        self.process = subprocess.Popen(words, stdin=subprocess.DEVNULL, stdout=subprocess.DEVNULL, stderr=subprocess.DEVNULL)
        urgent(self.process.pid)
        wait_for(self.lmtp)

    def stop(self):
        managesieve.end(self.process)


def rate(program, kinds):
    best = 0.0
    for _ in range(TURNS):
        with tempfile.TemporaryDirectory(dir="/dev/shm") as room:
            host = Host(room, program, kinds)
            try:
                best = max(best, deliveries(host, 1))
            finally:
                host.stop()
    return best


def main(words):
    program, _ = program_of(words)
    head("`--before`", "deliveries a second", "a delivery more, us")
    alone = None
    for name, kinds in KINDS.items():
        found = rate(program, kinds)
        alone = alone or found
        row(name, f"{found:,.0f}", f"{1e6 / found - 1e6 / alone:,.0f}")


if __name__ == "__main__":
    main(words_of(__doc__))
