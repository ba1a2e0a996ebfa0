#!/usr/bin/env python3
"""Times the calls that a message and a command go through, in one process, and prints the tables of docs/PERFORMANCE.md.

  bench/speeds.py [FOLDER]       FOLDER: where the program is made; a new one where none is named

It makes a program crate of bench/speeds/*.rt.txt beside a copy of this repository's crates (hard links, so what is proved of them is used),
proves and builds it with `rt run` (some minutes), and runs it five times. Each figure is the least of the five.
"""
import os, tempfile
from measure import built, head, ran, row, words_of

HERE = os.path.dirname(os.path.abspath(__file__))
NEEDS = "octets mail_head mail_words mail_address sieve_match sieve_syntax managesieve_protocol sasl_plain store_accounts store_engine sqlite"


def figures(program):
    found = {}
    for _ in range(5):
        for line in ran([program]).out.decode().splitlines():
            what, times, took, _ = line.split("\t")
            key = (what, int(times))
            found[key] = min(found.get(key, int(took)), int(took))
    return found


def main():
    folder = (words_of(__doc__) or [tempfile.mkdtemp()])[0]
    files = {f"src/{name.removesuffix('.txt')}": open(f"{HERE}/speeds/{name}").read() for name in os.listdir(f"{HERE}/speeds")}
    program = built(folder, "speeds", NEEDS, files)
    head("What", "Times", "us each")
    for (what, times), took in figures(program).items():
        row(what, f"{times:,}", f"{took / times / 1000:,.2f}")


if __name__ == "__main__":
    main()
