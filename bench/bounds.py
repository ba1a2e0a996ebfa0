#!/usr/bin/env python3
"""Measures what bounds the whole way of mail: what a sync takes, what a delivery is to work, and a program that only makes the calls.

  bench/bounds.py [--sync MS[,MS]] [--seconds S] [SIEVED]

SIEVED: the program, crates/sieved/out/sieved where none is named. MS: so many milliseconds more each sync takes (0, 2 and 8 where
none is named). It prints a row for each: a sync of a file that 8 kB were added to (s); the processor's time of the daemon for a
delivery of 8 kB (c), of a run at 0 ms; so what 20 connections could be answered at most, 20 / (s + 20 c), as each commit is one sync
and the deliveries of a commit are work one after the other; and the files that a program without any work writes and syncs one
after the other, renames into `new`, and takes down in a log that is synced, 64 at a time, as `daemon --mail` does.
"""
import os, subprocess, sys, tempfile, time
from measure import head, program_of, row, words_of
from whole_way import SievedWay, names, script, send
import slow_disk

MESSAGE = b"x" * 8192
TOGETHER = 64
# What a process of its own runs, so that the preloaded library holds its syncs: which figure, for so many seconds, in a folder.
FIGURES = "syncs", "files"


def syncs(seconds, folder):
    """Syncs of a file that grows, a second."""
    file, count, end = os.open(f"{folder}/log", os.O_WRONLY | os.O_CREAT), 0, time.perf_counter() + seconds
    spent = 0.0
    while time.perf_counter() < end:
        os.write(file, MESSAGE)
        at = time.perf_counter()
        os.fdatasync(file)
        spent += time.perf_counter() - at
        count += 1
    return count / spent if spent else 0.0


def files(seconds, folder):
    """Files that are written, synced and shown, a second."""
    for part in "tmp", "new", "cur":
        os.mkdir(f"{folder}/{part}")
    log, new, cur = os.open(f"{folder}/log", os.O_WRONLY | os.O_CREAT), os.open(f"{folder}/new", os.O_RDONLY), os.open(f"{folder}/cur", os.O_RDONLY)
    count, began = 0, time.perf_counter()
    while time.perf_counter() - began < seconds:
        for _ in range(TOGETHER):
            put(folder, count)
            count += 1
        os.fsync(new), os.fsync(cur)
        os.write(log, MESSAGE)
        os.fdatasync(log)
    return count / (time.perf_counter() - began)


def put(folder, at):
    file = os.open(f"{folder}/tmp/{at}", os.O_WRONLY | os.O_CREAT | os.O_EXCL, 0o600)
    os.write(file, MESSAGE)
    os.fsync(file)
    os.close(file)
    os.rename(f"{folder}/tmp/{at}", f"{folder}/new/{at}")


def figure(name, millis, seconds):
    with tempfile.TemporaryDirectory() as folder:
        env = {**os.environ, **slow_disk.environment(millis)}
        done = subprocess.run([sys.executable, __file__, name, str(seconds), folder], env=env, check=True, capture_output=True)
        return float(done.stdout)


def work(program, seconds):
    """The daemon's processor time for a delivery, in seconds; it moves nothing meanwhile."""
    with tempfile.TemporaryDirectory() as room:
        server = SievedWay(room, 0, names(1), script(1), program, moves=False)
        try:
            before, (inlet, outlet) = processor_time(server.process.pid), os.pipe()
            os.waitpid(send(server, names(1), 0, seconds, outlet), 0)
            os.close(outlet)
            count = int(open(inlet, "rb").read())
            return (processor_time(server.process.pid) - before) / count
        finally:
            server.stop()


def processor_time(pid):
    with open(f"/proc/{pid}/stat") as file:
        user, system = file.read().rsplit(")", 1)[1].split()[11:13]
    return (int(user) + int(system)) / os.sysconf("SC_CLK_TCK")


def main(words):
    options = {"--sync": "0,2,8", "--seconds": "3"}
    while words[:1] and words[0] in options:
        options[words[0]], words = words[1], words[2:]
    program, _ = program_of(words)
    seconds = float(options["--seconds"])
    head("A sync takes more", "s: a sync, ms", "c: a delivery's work, ms", "20 / (s + 20 c), a second", "files shown by the calls alone, a second")
    each = work(program, seconds)
    for millis in map(float, options["--sync"].split(",")):
        sync = 1 / figure("syncs", millis, seconds)
        row(f"{millis:g} ms", f"{1000 * sync:.2f}", f"{1000 * each:.2f}", f"{20 / (sync + 20 * each):,.0f}", f"{figure('files', millis, seconds):,.0f}")


if __name__ == "__main__":
    if sys.argv[1:2] and sys.argv[1] in FIGURES:
        print(globals()[sys.argv[1]](float(sys.argv[2]), sys.argv[3]))
    else:
        main(words_of(__doc__))
