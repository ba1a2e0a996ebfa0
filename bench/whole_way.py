#!/usr/bin/env python3
"""Measures the whole way of mail beside Dovecot: messages that are answered a second, and messages that IMAP can show a second.

  bench/whole_way.py [--sync MS[,MS]] [--seconds S] [--turns N] [--rows C/U[,C/U]] [--rules N] [--stores K] [SIEVED]

SIEVED: the program, crates/sieved/out/sieved where none is named. MS: so many milliseconds more each sync of both takes (0, 2 and 8
where none is named). C/U: connections and users (1/1, 20/1, 20/20); where there are more users than connections each of them gets
one message. N: how many rules a user's script has (1). K: among how many daemons with a store each sieved's users are parted (1).
Prints a table of docs/PERFORMANCE.md.

It needs root and Debian's dovecot-lmtpd and dovecot-sieve. Each user has one active script, whose last rule files what has `[list]`
in its subject; those before it look for other words there. Messages are of 8 kB. sieved runs as `daemon --mail`: a message is shown once its file is in `new` of the user's Maildir.
Dovecot delivers into Maildirs, by processes that are kept; what it answered is shown. Each connection is a process of its own, which
sends for S seconds (3); then it is waited until all is shown, for ten minutes at most. The best of N turns (2), each on a fresh
store. Client and server share the processors; both servers have real-time priority, where the machine gives it.
"""
import os, subprocess, sys, tempfile, time
from measure import head, program_of, row, words_of
import beside_dovecot, managesieve
from beside_dovecot import Dovecot, Sender, free_port, urgent, wait_for
import slow_disk

REQUIRE, RULE = beside_dovecot.SCRIPT.split(b"\r\n", 1)
PATIENCE = 600


def script(rules):
    """A script of so many rules."""
    others = b"".join(b'if header :contains "subject" "[other%d]" { fileinto "other%d"; }\r\n' % (at, at) for at in range(1, rules))
    return REQUIRE + b"\r\n" + others + RULE


def names(users):
    return [f"user{at}" for at in range(users)]


class StoresWay:
    """Several daemons on one machine, each with a store of its own; the users are parted among them."""
    name = "sieved"

    def __init__(self, room, millis, users, text, program, count):
        self.stores = [SievedWay(f"{room}/{at}", millis, names(users)[at::count], text, program) for at in range(min(count, users))]
        self.owners = {user: store for store in self.stores for user in store.users}
        self.maildirs = [maildir for store in self.stores for maildir in store.maildirs]

    def at(self, user):
        return self.owners[user]

    def stop(self):
        for store in self.stores:
            store.stop()


class DovecotWay(Dovecot):
    def __init__(self, room, millis, users, text):
        super().__init__(room, millis)
        for user in names(users):
            os.makedirs(f"{self.room}/mail/{user}")
            with open(f"{self.room}/mail/{user}/active.sieve", "wb") as file:
                file.write(text)
        subprocess.run(["chown", "-R", "nobody:nogroup", f"{self.room}/mail"], check=True)
        self.maildirs = [f"{self.room}/mail/{user}/.lists" for user in names(users)]

    def at(self, user):
        return self


class SievedWay:
    name = "sieved"

    def __init__(self, room, millis, users, text, program, moves=True):
        self.room, self.lmtp, self.sieve, self.users = f"{room}/sieved", free_port(), free_port(), users
        os.makedirs(f"{self.room}/mail")
        db = f"{self.room}/mail.db"
        subprocess.run([program, "init", "--db", db], check=True, stdout=subprocess.DEVNULL)
        with open(f"{self.room}/script", "wb") as file:
            file.write(text)
        for user in users:
            words = [program, "adduser", "--db", db, "--salt", os.urandom(16).hex(), user, f"{user}@example.org"]
            subprocess.run(words, input=b"secret\n", check=True, stdout=subprocess.DEVNULL)
            with open(f"{self.room}/script", "rb") as file:
                subprocess.run([program, "put", "--db", db, "--activate", user, "main"], stdin=file, check=True, stdout=subprocess.DEVNULL)
        words = [program, "daemon", "--db", db, "--managesieve", str(self.sieve), "--lmtp", str(self.lmtp), *(["--mail", f"{self.room}/mail"] if moves else []), "--quiet"]
        env = {**os.environ, **slow_disk.environment(millis)}
        self.process = subprocess.Popen(words, stdin=subprocess.DEVNULL, stdout=subprocess.DEVNULL, stderr=subprocess.DEVNULL, env=env)
        urgent(self.process.pid)
        wait_for(self.lmtp), wait_for(self.sieve)
        self.maildirs = [f"{self.room}/mail/{user}/.lists" for user in users]

    def at(self, user):
        return self

    def stop(self):
        managesieve.end(self.process)


def shown(server):
    """How many messages stand where an IMAP server shows them."""
    count = 0
    for maildir in server.maildirs:
        for part in "new", "cur":
            try:
                count += len(os.listdir(f"{maildir}/{part}"))
            except FileNotFoundError:
                pass
    return count


def send(server, users, at, seconds, told):
    """Sends over one connection, in a process of its own, to one user for so long, or a message to each of several; tells how many were
    answered."""
    pid = os.fork()
    if pid:
        return pid
    server = server.at(users[0])
    server.user = users[0]
    sender, count, end = Sender(server), 0, time.perf_counter() + seconds
    while count < len(users) if len(users) > 1 else time.perf_counter() < end:
        sender.user = users[count % len(users)]
        sender.deliver(at * 1_000_000 + count)
        count += 1
    os.write(told, f"{count}\n".encode())
    os._exit(0)


def owners(connections, users, at):
    """To whom a connection sends."""
    return names(users)[at::connections] if users > connections else [names(users)[at % users]]


def measure(server, connections, users, seconds):
    """Messages that were answered a second, and that were shown a second."""
    inlet, outlet = os.pipe()
    began = time.perf_counter()
    pids = [send(server, owners(connections, users, at), at, seconds, outlet) for at in range(connections)]
    for pid in pids:
        if os.waitpid(pid, 0)[1]:
            raise Exception("a connection failed")
    spent = time.perf_counter() - began
    os.close(outlet)
    with open(inlet, "rb") as counts:
        sent = sum(map(int, counts.read().split()))
    while shown(server) < sent and time.perf_counter() - began < PATIENCE:
        time.sleep(0.02)
    if shown(server) != sent:
        raise Exception(f"{server.name}: {sent} answered, {shown(server)} shown")
    return sent / spent, sent / (time.perf_counter() - began)


def best_of(turns, make, connections, users, seconds):
    best = (0.0, 0.0)
    for _ in range(turns):
        with tempfile.TemporaryDirectory() as room:
            server = make(room)
            try:
                best = tuple(map(max, best, measure(server, connections, users, seconds)))
            finally:
                server.stop()
    return best


def against(ours, theirs):
    return f"{ours:,.0f} / {theirs:,.0f} ({ours / theirs:.2f})"


def main(words):
    options = {"--sync": "0,2,8", "--seconds": "3", "--turns": "2", "--rows": "1/1,20/1,20/20", "--rules": "1", "--stores": "1"}
    while words[:1] and words[0] in options:
        options[words[0]], words = words[1], words[2:]
    program, _ = program_of(words)
    seconds, turns, stores = float(options["--seconds"]), int(options["--turns"]), int(options["--stores"])
    text = script(int(options["--rules"]))
    head("A sync takes more", "connections, users", "answered, sieved / Dovecot", "shown in the Maildir, sieved / Dovecot")
    for millis in map(float, options["--sync"].split(",")):
        for pair in options["--rows"].split(","):
            connections, users = map(int, pair.split("/"))
            if stores > 1 and users > connections:
                sys.exit("among several stores each connection has one user")
            ours = best_of(turns, lambda room: StoresWay(room, millis, users, text, program, stores), connections, users, seconds)
            theirs = best_of(turns, lambda room: DovecotWay(room, millis, users, text), connections, users, seconds)
            row(f"{millis:g} ms", f"{connections}, {users}", against(ours[0], theirs[0]), against(ours[1], theirs[1]))


if __name__ == "__main__":
    main(words_of(__doc__))
