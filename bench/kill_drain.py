#!/usr/bin/env python3
"""Kills `sieved drain` at random moments, and lets its disk run full: is any message lost, cut or doubled?

  bench/kill_drain.py [--sieved SIEVED] [TRIAL ..]       SIEVED: the program, crates/sieved/out/sieved where none is named

Prints a line for each trial, and ends with 1 where one failed. The trials: killed, full; without a word, both. It needs
python3; `full` mounts a small tmpfs, for which it is run as root.

`killed` kills 300 runs with SIGKILL. After each, every message that was delivered is in the folder, in the Maildir or in
both, octet by octet; a run leaves at most one in both. At the end a last run moves the rest, and each message is in the
Maildir once. Each message is filed into two folders, which go into two Maildirs in turn; some messages are delivered
twice, which are two messages.
"""
import os, random, sqlite3, subprocess, sys, tempfile, time
from collections import Counter
from contextlib import closing
from measure import program_of, words_of
from managesieve import Store

KILLS = 300
KEPT = 60
SCRIPT = b'require "fileinto";\r\nfileinto "lists";\r\nkeep;\r\n'


class House:
    """A store of one user, whose script files each message into two folders, and a Maildir for each folder."""

    def __init__(self, sieved, maildirs=None):
        self.store = Store(["alice"], sieved)
        self.maildirs = {}
        for folder in ("INBOX", "lists"):
            self.maildirs[folder] = f"{maildirs or self.store.folder.name}/{folder}"
            make_maildir(self.maildirs[folder])
        self.delivered = Counter()
        self.count = 0
        session, client = self.store.session()
        client.log_in("alice")
        client.put(b"main", SCRIPT)
        client.ask(b'SETACTIVE "main"')
        client.ask(b"LOGOUT")
        session.wait()

    def deliver(self):
        self.count += 1
        text = b"Subject: %d\r\n\r\n" % self.count + random.randbytes(random.choice((10, 500, 8_000, 40_000)))
        for _ in range(random.choice((1, 1, 1, 2))):
            self.store.run("deliver", "--wait", "--to", "alice@example.org", "alice", data=text)
            self.delivered[text] += 1

    def drain(self, folder):
        return self.store.words("drain", "--wait", "alice", folder, self.maildirs[folder])

    def stored(self, folder):
        """The messages that the store has in a folder. The program opens it first, and so takes SQLite's log in."""
        self.store.run("folders", "--wait", "alice")
        with closing(sqlite3.connect(f"file:{self.store.file}?mode=ro", uri=True)) as conn:
            rows = conn.execute("SELECT message.bytes FROM copy JOIN message ON message.owner = copy.owner"
                                " AND message.id = copy.id WHERE copy.folder = ?", (folder.encode(),)).fetchall()
        return Counter(row[0] for row in rows)

    def kept(self, folder, part="new"):
        """The messages that the Maildir has."""
        path = f"{self.maildirs[folder]}/{part}"
        return Counter(open(f"{path}/{name}", "rb").read() for name in os.listdir(path))

    def check(self, folder, doubles):
        """Each delivered message is there, and at most that many are in the store and in the Maildir. Answers how many are."""
        both = self.stored(folder) + self.kept(folder)
        lost, more = self.delivered - both, both - self.delivered
        assert not lost, f"{folder}: {sum(lost.values())} messages are lost"
        assert sum(more.values()) <= doubles, f"{folder}: {sum(more.values())} are there twice, or weren't delivered"
        assert all(text in self.delivered for text in more), f"{folder}: a message that wasn't delivered"
        return sum(more.values())

    def end(self, folder):
        """A run that nothing disturbs moves the rest."""
        subprocess.run(self.drain(folder), check=True, stdout=subprocess.DEVNULL)
        assert self.kept(folder) == self.delivered and not self.stored(folder), f"{folder}: not each message once"
        assert not self.kept(folder, "tmp"), f"{folder}: something is left in tmp"


def make_maildir(path):
    for part in ("tmp", "new", "cur"):
        os.makedirs(f"{path}/{part}")


def killed(sieved):
    house = House(sieved)
    tally = Counter()
    for turn in range(KILLS):
        folder = ("INBOX", "lists")[turn % 2]
        while sum(house.stored(folder).values()) < KEPT:
            house.deliver()
        before = sum(house.kept(folder).values())
        process = subprocess.Popen(house.drain(folder), stdout=subprocess.DEVNULL)
        time.sleep(random.uniform(0.0, 0.2))
        process.kill()
        tally["ended before"] += process.wait() == 0
        tally["in both"] += house.check(folder, 1)
        tally["left in tmp"] += sum(house.kept(folder, "tmp").values())
        tally["moved"] += sum(house.kept(folder).values()) - before
    for folder in house.maildirs:
        house.end(folder)
    return (f"{KILLS} kills, {tally['ended before']} after the run had ended; {tally['moved']} files came into new; {tally['in both']} times a message"
            f" was in both, {tally['left in tmp']} times a file was left in tmp; at the end each of {sum(house.delivered.values())} messages is in each Maildir once")


def full(sieved):
    with tempfile.TemporaryDirectory(prefix="sieved-full-") as mount:
        subprocess.run(["mount", "-t", "tmpfs", "-o", "size=400k", "tmpfs", mount], check=True)
        try:
            house = House(sieved, mount)
            for _ in range(KEPT):
                house.deliver()
            for folder in house.maildirs:
                done = subprocess.run(house.drain(folder), capture_output=True)
                assert done.returncode == 75 and b"disk is full" in done.stderr, done
                house.check(folder, 0)
            moved = sum(sum(house.kept(folder).values()) for folder in house.maildirs)
            left = sum(sum(house.kept(folder, "tmp").values()) for folder in house.maildirs)
            assert not left, left
            subprocess.run(["mount", "-o", "remount,size=100m", mount], check=True)
            for folder in house.maildirs:
                house.end(folder)
        finally:
            subprocess.run(["umount", mount], check=True)
    return f"the disk ran full after {moved} messages: status 75, {done.stderr.decode().splitlines()}; with room again each of {sum(house.delivered.values())} is in each Maildir once"


TRIALS = {"killed": killed, "full": full}


def main():
    sieved, words = program_of(words_of(__doc__))
    failed = False
    for name in words or TRIALS:
        try:
            print(f"{name}: {TRIALS[name](sieved)}", flush=True)
        except AssertionError as error:
            failed = True
            print(f"{name}: FAILED: {error}", flush=True)
    sys.exit(failed)


if __name__ == "__main__":
    main()
