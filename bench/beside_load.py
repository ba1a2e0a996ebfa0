#!/usr/bin/env python3
"""What a client of `sieved daemon` gets while others do their worst, and how long `adduser --wait` takes beside a full load.

  bench/beside_load.py [--rounds N] [--hostile] [SIEVED]     SIEVED: the program, crates/sieved/out/sieved where none is named

Prints a table of docs/PERFORMANCE.md: the median, the 99th of a hundred and the greatest of a client's round trips (NOOP and GETSCRIPT
of a script of 1 kB), alone and beside four hostile clients: one floods NOOPs in a pipeline, one is silent in DATA, one asks for 200 kB
again and again and reads nothing, one guesses passwords. Then the same of `adduser --wait`, alone and while 20 clients put scripts and
four connections deliver messages that are discarded, so that the store doesn't grow; and the daemon's memory with 50 clients that are
logged in and at rest. Each hostile client and each client of the load is a process of its own, so that no other one waits for it; 10 ms
pass between two rounds. 500 rounds where no other number is named; with `--hostile` the round trips alone. All that runs here comes
before what else runs on the machine (as a group of nice -20, where that can be had), but without real-time priority, which the system
takes away for 50 ms of each second from who uses a whole processor.
"""
import multiprocessing, os, signal, subprocess, sys, tempfile, time
from measure import head, program_of, row, words_of
import managesieve
import beside_dovecot
from beside_dovecot import Sender, Sieved

ROUNDS, WORDS = 500, 100
SCRIPT = b"# %s\r\n" % (b"x" * 70) * 13 + b"keep;\r\n"
BIG = b"# %s\r\n" % (b"x" * 70) * 2_700 + b"keep;\r\n"
WRONG = b'AUTHENTICATE "PLAIN" "AGFsaWNlAHdyb25n"'


def logged_in(server):
    client = managesieve.connect(server.sieve)
    assert client.log_in("alice").startswith(b"OK")
    return client


def floods(server):
    """Sends NOOPs as fast as they are taken, and reads what comes."""
    client = logged_in(server)
    reader = os.fork()
    if reader == 0:
        while client.sock.recv(1 << 16):
            pass
        os._exit(0)
    while True:
        client.sock.sendall(b"NOOP\r\n" * 1_000)


def is_silent(server):
    """Begins a text, and says no more."""
    sender = Sender(server)
    sender.say(b"MAIL FROM:<bob@example.net>\r\nRCPT TO:<alice@example.org>\r\nDATA\r\n", b"250", b"250", b"354")
    sender.sock.sendall(b"Subject: half a")
    signal.pause()


def is_deaf(server):
    """Asks for 200 kB again and again, and reads nothing."""
    client = logged_in(server)
    client.sock.settimeout(None)
    while True:
        client.sock.sendall(b'GETSCRIPT "big"\r\n' * 1_000)


def guesses(server):
    """Guesses passwords, three over each connection."""
    while True:
        client = managesieve.connect(server.sieve)
        for _ in range(3):
            client.ask(WRONG)
        client.close()


def puts(server):
    """Puts a script of 7 kB again and again."""
    client = managesieve.connect(server.sieve)
    while not client.log_in("alice").startswith(b"OK"):
        pass
    while True:
        client.put(b"load", SCRIPT * 7)


def delivers(server):
    sender, number = Sender(server), 0
    while True:
        sender.deliver(number)
        number += 1


class Beside:
    """These run beside what is measured, each in a process of its own."""

    def __init__(self, server, kinds):
        self.processes = [multiprocessing.Process(target=self.run, args=(server, kind), daemon=True) for kind in kinds]

    @staticmethod
    def run(server, kind):
        os.setpgrp()
        sys.stderr = open(os.devnull, "w")
        kind(server)

    def __enter__(self):
        for process in self.processes:
            process.start()
        time.sleep(2)
        assert all(process.is_alive() for process in self.processes), "a client ended"

    def __exit__(self, *_):
        for process in self.processes:
            os.killpg(process.pid, signal.SIGKILL)
            process.join()


def times_of(count, rest, call):
    times = []
    for turn in range(count):
        time.sleep(rest)
        began = time.perf_counter()
        call(turn)
        times.append(1000 * (time.perf_counter() - began))
    return sorted(times)


def tell(what, times):
    row(what, *(f"{time:.2f}" for time in (times[len(times) // 2], times[(len(times) * 99 + 99) // 100 - 1], times[-1])))


def wants(told, start):
    assert told.startswith(start), told


def round_trips(server, where, rounds):
    client = logged_in(server)
    times = [(f"NOOP {where}", times_of(rounds, 0.01, lambda _: wants(client.ask(b"NOOP")[-1], b"OK"))),
             (f"GETSCRIPT {where}", times_of(rounds, 0.01, lambda _: wants(client.get(b"short"), SCRIPT)))]
    client.close()
    return times


def words(server, program, where):
    def add(turn):
        told = subprocess.run([program, "adduser", "--wait", "--db", server.file, "--salt", os.urandom(16).hex(), f"{where}{turn}", "a@example.org"],
                              input=b"secret\n", capture_output=True)
        assert told.returncode == 0, told
    return times_of(WORDS, 0.05, add)


def resident(pid):
    return int(next(line for line in open(f"/proc/{pid}/status") if line.startswith("VmRSS")).split()[1]) / 1024


def come_first():
    """This process and those that it starts are a group that comes before others."""
    beside_dovecot.urgent = lambda pid: None
    os.sched_setscheduler(0, os.SCHED_OTHER, os.sched_param(0))
    try:
        os.setsid()
        with open("/proc/self/autogroup", "w") as group:
            group.write("-20")
    except OSError:
        pass


def main(rounds, program, hostile_alone):
    with tempfile.TemporaryDirectory(dir=os.environ.get("TMPDIR")) as room:
        server = Sieved(room, program)
        client = logged_in(server)
        wants(client.put(b"short", SCRIPT), b"OK"), wants(client.put(b"big", BIG), b"OK")
        client.close()
        head("A round trip, in ms", "median", "99th of 100", "greatest")
        for what in round_trips(server, "alone", rounds):
            tell(*what)
        with Beside(server, [floods, is_silent, is_deaf, guesses]):
            hostile = round_trips(server, "beside four hostile clients", rounds)
        for what in hostile:
            tell(*what)
        if hostile_alone:
            return server.stop()
        client = logged_in(server)
        wants(client.put(b"none", b"discard;\r\n"), b"OK"), wants(client.ask(b'SETACTIVE "none"')[-1], b"OK")
        client.close()
        tell("`adduser --wait` alone", words(server, program, "alone"))
        with Beside(server, [puts] * 20 + [delivers] * 4):
            loaded = words(server, program, "beside")
        tell("`adduser --wait` beside 20 clients that put scripts and four that deliver", loaded)
        server.stop()
        size = os.stat(server.file).st_size / 1e6
        server = Sieved(f"{room}/rest", program)
        clients = [logged_in(server) for _ in range(50)]
        time.sleep(2)
        print(f"\nthe daemon's memory with {len(clients)} clients at rest: {resident(server.process.pid):.1f} MB\nthe store behind that load: {size:.1f} MB")
        server.stop()


if __name__ == "__main__":
    given = words_of(__doc__)
    rounds = int(given.pop(given.index("--rounds") + 1)) if "--rounds" in given else ROUNDS
    come_first()
    main(rounds, program_of([word for word in given if word not in ("--rounds", "--hostile")])[0], "--hostile" in given)
