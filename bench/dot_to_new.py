#!/usr/bin/env python3
"""Measures one message's way with nothing else going on: from its text to its answer, and to its file in `new`.

  bench/dot_to_new.py [--sync MS[,MS]] [--count N] [SIEVED]

SIEVED: the program, crates/sieved/out/sieved where none is named. MS: so many milliseconds more each sync takes (0, 2, 8 and 50 where
none is named). N: how many messages of 8 kB, one every tenth of a second (30). A row for each: median and greatest, in ms, and how many
syncs the median is more than that of the first row.
"""
import os, statistics, sys, tempfile, time
from measure import head, program_of, row, words_of
from beside_dovecot import Sender
from whole_way import SievedWay, names, script

PAUSE = 0.1


def way(program, millis, count):
    """Of each message the seconds to its answer and to its file."""
    with tempfile.TemporaryDirectory() as room:
        server = SievedWay(room, millis, names(1), script(1), program)
        try:
            server.user = names(1)[0]
            sender, (maildir,), times = Sender(server), server.maildirs, []
            for number in range(count + 1):
                times.append(timed(sender, f"{maildir}/new", number))
                time.sleep(PAUSE)
            # The first one makes the Maildir.
            return times[1:]
        finally:
            server.stop()


def timed(sender, new, number):
    sender.begin(number)
    began = time.perf_counter()
    sender.end()
    answered = time.perf_counter() - began
    while (len(os.listdir(new)) if os.path.isdir(new) else 0) <= number:
        time.sleep(0.0001)
    return answered, time.perf_counter() - began


def main(words):
    options = {"--sync": "0,2,8,50", "--count": "30"}
    while words[:1] and words[0] in options:
        options[words[0]], words = words[1], words[2:]
    program, _ = program_of(words)
    head("A sync takes more", "answered, ms", "greatest", "in `new`, ms", "greatest", "syncs to the answer, to `new`")
    first = None
    for millis in map(float, options["--sync"].split(",")):
        answered, shown = ([1000 * value for value in column] for column in zip(*way(program, millis, int(options["--count"]))))
        middle = statistics.median(answered), statistics.median(shown)
        first = first or middle
        more = [f"{(value - least) / millis:.1f}" if millis else "" for value, least in zip(middle, first)]
        row(f"{millis:g} ms", f"{middle[0]:.1f}", f"{max(answered):.1f}", f"{middle[1]:.1f}", f"{max(shown):.1f}", ", ".join(filter(None, more)))


if __name__ == "__main__":
    main(words_of(__doc__))
