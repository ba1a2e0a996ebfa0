#!/usr/bin/env python3
"""Tries `sieved serve` and `sieved session` with clients that are slow, silent, noisy or many, and with a program that is killed.

  tests/hostile.py [--quick] [--sieved SIEVED] [TRIAL ..]     SIEVED: the program, crates/sieved/out/sieved where none is named

Prints a line for each trial, a last one that counts them, and ends with 1 where one failed. `tests/run` runs it, with --quick, which
does a tenth of what is done many times. It needs python3 and, for `fifty`, socat.
The trials: octets, rubbish, silent, thousand, killed_serve, killed_session, fifty, fifty_put_off; without a word, all.
"""
import os, random, socket, threading, time
import trials
from managesieve import SIEVED, Gone, Store, connect, end

RULES = b'require "fileinto";\r\nif header :contains "subject" "[list]" { fileinto "lists"; }\r\n'
SESSION = (b'CAPABILITY\r\nAUTHENTICATE "PLAIN" "AGFsaWNlAHNlY3JldA=="\r\nPUTSCRIPT "rules" {%d+}\r\n%s\r\nSETACTIVE "rules"\r\n'
           b'LISTSCRIPTS\r\nGETSCRIPT "rules"\r\nwrong\r\nNOOP "a"\r\nSETACTIVE ""\r\nDELETESCRIPT "rules"\r\nLOGOUT\r\n') % (len(RULES), RULES)


def said(port, pieces):
    """All that a client is told that sends these pieces, until the server ends the session."""
    client = connect(port, greeted=False)
    told = []
    reader = threading.Thread(target=lambda: told.append(until_end(client.incoming)))
    reader.start()
    try:
        for piece in pieces:
            client.send(piece)
        client.sock.shutdown(socket.SHUT_WR)
    except (Gone, OSError):
        pass
    reader.join()
    client.close()
    return told[0]


def until_end(incoming):
    told = b""
    try:
        while piece := incoming.read1(65_536):
            told += piece
    except OSError:
        pass
    return told


def octets(store):
    server, port = store.serve()
    whole = said(port, [SESSION])
    single = said(port, [SESSION[at:at + 1] for at in range(len(SESSION))])
    end(server)
    assert whole == single and whole.endswith(b'OK "Bye."\r\n'), (whole, single)
    return f"{len(SESSION)} octets one by one are answered as the same in one piece, {len(whole)} octets"


def rubbish(store):
    server, port = store.serve()
    keep(connect(port))
    noise = random.Random(1).randbytes(trials.some(2 << 20))
    lines = said(port, [noise[at:at + 65_536] for at in range(0, len(noise), 65_536)])
    long = said(port, [b"a" * 65_536] * 160)
    literal = said(port, [b'PUTSCRIPT "a" {10485760+}\r\n', *[b"a" * 65_536] * 160])
    held = kept(connect(port))
    most = memory(server, "VmHWM")
    end(server)
    assert held and b"Too big." in long + literal, (held, lines[-80:], long[-80:], literal[-80:])
    return f"{len(noise)} octets at random: {lines.count(b'Syntax error')} bad lines, then {lines[-14:]!r}; in one line and as a literal: BYE; at most {most} kB; the next client is served"


def keep(client):
    assert client.log_in("alice").startswith(b"OK") and client.put(b"kept", RULES).startswith(b"OK")
    client.ask(b"LOGOUT")
    client.close()


def kept(client):
    client.log_in("alice")
    text = client.get(b"kept")
    client.ask(b"LOGOUT")
    client.close()
    return text == RULES


def memory(process, row="VmRSS"):
    for line in open(f"/proc/{process.pid}/status"):
        if line.startswith(row):
            return int(line.split()[1])


def silent(store):
    server, port = store.serve()
    first = connect(port)
    second = connect(port, greeted=False, seconds=1)
    try:
        waited = not second.incoming.readline()
    except TimeoutError:
        waited = True
    second.close()
    third = connect(port, greeted=False)
    first.close()
    third.reply()
    third.ask(b"LOGOUT")
    third.close()
    end(server)
    assert waited
    return "serve: while one is silent the next isn't greeted; once it is gone, or the next one went away unserved, the one after is"


def thousand(store):
    server, port = store.serve()
    kinds = [b"", b'AUTHENTICATE "PLAIN" "AGFsaWNlAHNlY3JldA=="\r\nPUTSCRIPT "a" {100+}\r\nkeep', b"LOGOUT\r\n", SESSION]
    figures = {}
    last = trials.some(1_000)
    for count in range(1, last + 1):
        said(port, [kinds[count % 4]])
        if count in (10, last):
            figures[count] = memory(server), len(os.listdir(f"/proc/{server.pid}/fd"))
    end(server)
    assert figures[10][1] == figures[last][1] and figures[last][0] < figures[10][0] + 200, figures
    return f"resident {figures[10][0]} kB after 10 sessions, {figures[last][0]} kB after {last}; descriptors {figures[10][1]} and {figures[last][1]}"


class Ledger:
    """What a server acknowledged: each script's last text, and the one that was asked for and not acknowledged."""

    def __init__(self):
        self.texts, self.asked, self.count, self.writes = {}, None, 0, 0

    def put(self, client):
        self.count += 1
        name = b"s%d" % (self.count % 10)
        text = b"# %d\r\n" % self.count + b"keep;\r\n" * random.randrange(1, 400)
        self.asked = name, text
        if client.put(name, text).startswith(b"OK"):
            self.texts[name] = text
            self.writes += 1
            self.asked = None

    def check(self, client):
        for name, text in self.texts.items():
            found = client.get(name)
            asked = self.asked and self.asked[0] == name and self.asked[1]
            assert found == text or found == asked, (name, text, found)
            self.texts[name] = found
        self.asked = None


def killed(start):
    """Kills a program many times, each at a random moment, while it acknowledges scripts."""
    ledger = Ledger()
    for _ in range(trials.some(100)):
        process, client = start()
        threading.Timer(random.uniform(0.0, 0.15), process.kill).start()
        try:
            while True:
                ledger.put(client)
        except Gone:
            pass
        client.close()
        process.wait()
        process, client = start()
        ledger.check(client)
        client.close()
        end(process)
    return f"killed {trials.some(100)} times; {ledger.writes} scripts were acknowledged, each is there"


def killed_serve(store):
    def start():
        server, port = store.serve()
        client = connect(port)
        client.log_in("alice")
        return server, client
    return killed(start)


def killed_session(store):
    def start():
        process, client = store.session("--wait")
        client.log_in("alice")
        return process, client
    return killed(start)


def fifty(store, *more):
    """Fifty clients at once, each its own user, while ten others are silent."""
    trials.need("socat")
    listener, port = store.listen(*more)
    others = [connect(port) for _ in range(10)]
    results = [None] * 50
    began = time.time()
    clients = [threading.Thread(target=lives, args=(port, n, results)) for n in range(50)]
    for client in clients:
        client.start()
    for client in clients:
        client.join()
    took = time.time() - began
    for other in others:
        other.close()
    end(listener)
    assert all(type(result) is int for result in results), results
    return f"50 clients beside 10 silent ones, {trials.some(20)} scripts each: {took:.1f} s, {sum(results)} times put off, nothing lost, each answer its own"


def fifty_put_off(store):
    return fifty(store)


def lives(port, n, results):
    """One of fifty: how often it was put off, or what went wrong."""
    try:
        results[n] = live(port, f"u{n}")
    except (AssertionError, Gone, OSError) as error:
        results[n] = repr(error)


def live(port, user):
    client = connect(port, seconds=300)
    put_off = until_ok(client, lambda: client.log_in(user))
    for turn in range(trials.some(20)):
        text = b"# %s %d\r\nkeep;\r\n" % (user.encode(), turn)
        put_off += until_ok(client, lambda: client.put(b"mine", text))
        put_off += until_ok(client, lambda: checked(client, text))
    client.ask(b"LOGOUT")
    client.close()
    return put_off


def checked(client, text):
    lines = client.ask(b'GETSCRIPT "mine"')
    assert lines[-1].startswith(b"NO (TRYLATER)") or lines[0] == text, (text, lines)
    return lines[-1]


def until_ok(client, call):
    """How often the call was put off before it was done."""
    for count in range(10_000):
        told = call()
        if told.startswith(b"OK"):
            return count
        assert told.startswith(b"NO (TRYLATER)"), told
        time.sleep(random.uniform(0.001, 0.02))
    raise AssertionError("put off 10,000 times")


PROGRAM = [SIEVED]
TRIALS = {
    "octets": (octets, ["alice"]),
    "rubbish": (rubbish, ["alice"]),
    "silent": (silent, ["alice"]),
    "thousand": (thousand, ["alice"]),
    "killed_serve": (killed_serve, ["alice"]),
    "killed_session": (killed_session, ["alice"]),
    "fifty": (lambda store: fifty(store, "--wait"), [f"u{n}" for n in range(50)]),
    "fifty_put_off": (fifty_put_off, [f"u{n}" for n in range(50)]),
}


def over_a_store(trial, users):
    """The trial over a store of its own, with these users."""
    return lambda: trial(Store(users, PROGRAM[0]))


if __name__ == "__main__":
    trials.main({name: over_a_store(*row) for name, row in TRIALS.items()}, lambda program: PROGRAM.__setitem__(0, program))
