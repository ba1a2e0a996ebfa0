#!/usr/bin/env python3
"""A day's load in an hour over `sieved daemon`: does its memory, its descriptors or its time grow?

  bench/day.py [--seconds N] [--rate K] [--no-mail] [SIEVED]      3,600 s with 10 messages a second where nothing else is said

Twenty users. Messages of 1 to 60 kB come by LMTP over three connections, evenly spread over the seconds; every two seconds a user puts
a script by ManageSieve and makes it the active one, and five clients stay logged in and list their scripts each ten seconds. The daemon
moves mail into Maildirs (`--mail`). Each minute a line: messages so far, the 50th and the 99th of a delivery's milliseconds and of a
client's round trip, the daemon's memory, descriptors and threads, the store's octets, messages that aren't in a Maildir yet. At the end
the first ten minutes (or the first sixth) stand beside the last ones. It ends with 1 where an answer wasn't the one that is wanted.
"""
import os, random, subprocess, threading, time

from measure import program_of, words_of
import managesieve
from beside_dovecot import free_port, wait_for

USERS = [f"user{n:02}" for n in range(20)]
SCRIPTS = [b"keep;", b'require "fileinto"; if header :contains "subject" "[list]" { fileinto "lists"; }',
           b'require ["fileinto", "vacation"]; fileinto "seen"; vacation :days 1 "Away.";', b'if size :over 50K { discard; }']


class Sender:
    """A mail server's connection."""

    def __init__(self, port):
        import socket
        self.sock = socket.create_connection(("127.0.0.1", port), timeout=60)
        self.lines = self.sock.makefile("rb")
        self.expect(b"220")
        self.sock.sendall(b"LHLO localhost\r\n")
        self.expect(b"250")

    def expect(self, code):
        while True:
            line = self.lines.readline()
            if not line.startswith(code):
                raise SystemExit(f"{code} was wanted: {line}")
            if line[3:4] != b"-":
                return

    def deliver(self, rng, number):
        users = rng.sample(USERS, rng.choice([1, 1, 1, 2, 3]))
        subject = rng.choice([b"Lunch", b"[list] Lunch"])
        text = b"From: s%d@example.net\r\nTo: %s@example.org\r\nSubject: %s\r\nMessage-ID: <%d@example.net>\r\n\r\n%s\r\n.\r\n" % (
            number % 50, users[0].encode(), subject, number, b"x" * 70 + b"\r\n" + (b"y" * 76 + b"\r\n") * rng.randrange(10, 800))
        rcpt = b"".join(b"RCPT TO:<%s@example.org>\r\n" % user.encode() for user in users)
        began = time.perf_counter()
        self.sock.sendall(b"MAIL FROM:<s%d@example.net>\r\n" % (number % 50) + rcpt + b"DATA\r\n")
        for code in [b"250"] * (1 + len(users)) + [b"354"]:
            self.expect(code)
        self.sock.sendall(text)
        for _ in users:
            self.expect(b"250")
        return time.perf_counter() - began


class Day:
    def __init__(self, program, seconds, rate, moves):
        self.seconds, self.rate, self.rng = seconds, rate, random.Random(7)
        self.store = managesieve.Store(USERS, sieved=program)
        self.mail = f"{self.store.folder.name}/mail"
        for user in USERS:
            for part in "tmp", "new", "cur":
                os.makedirs(f"{self.mail}/{user}/{part}")
        self.lmtp, self.sieve = free_port(), free_port()
        words = self.store.words("daemon", "--managesieve", str(self.sieve), "--lmtp", str(self.lmtp), *(["--mail", self.mail] if moves else []))
        self.said = open(f"{self.store.folder.name}/said", "wb")
        self.daemon = subprocess.Popen(words, stdin=subprocess.DEVNULL, stdout=subprocess.DEVNULL, stderr=self.said)
        wait_for(self.lmtp), wait_for(self.sieve)
        self.lock, self.count, self.sent, self.took, self.trips, self.faults, self.ends = threading.Lock(), 0, 0, [], [], [], False

    def work(self, call, *words):
        """A client; what ends it is kept."""
        try:
            call(*words)
        except (Exception, SystemExit) as fault:
            self.faults.append(f"{call.__name__}: {fault!r}")

    def send(self, at, senders):
        rng, sender = random.Random(at), Sender(self.lmtp)
        while not self.ends:
            with self.lock:
                number, self.count = self.count, self.count + 1
            wait = self.began + number / self.rate - time.monotonic()
            if wait > 0:
                time.sleep(wait)
            took = sender.deliver(rng, number)
            with self.lock:
                self.took.append(took)
                self.sent += 1

    def ask(self, client, *words):
        began = time.perf_counter()
        answer = client.ask(*words)[-1]
        if not answer.startswith(b"OK"):
            raise SystemExit(f"{words[0]}: {answer}")
        with self.lock:
            self.trips.append(time.perf_counter() - began)

    def upload(self):
        rng = random.Random(99)
        while not self.ends:
            client = managesieve.connect(self.sieve)
            client.log_in(rng.choice(USERS))
            self.ask(client, b'PUTSCRIPT "main"', rng.choice(SCRIPTS))
            self.ask(client, b'SETACTIVE "main"')
            client.ask(b"LOGOUT")
            time.sleep(2)

    def look(self, user):
        client = managesieve.connect(self.sieve)
        client.log_in(user)
        while not self.ends:
            self.ask(client, b"LISTSCRIPTS")
            time.sleep(10)

    def row(self, minute):
        """A line's values, of what came since the last one."""
        with self.lock:
            took, self.took, trips, self.trips = sorted(self.took), [], sorted(self.trips), []
        with open(f"/proc/{self.daemon.pid}/status") as file:
            status = dict(line.split(":", 1) for line in file)
        part = lambda values, share: 1000 * values[min(len(values) - 1, int(len(values) * share))] if values else 0
        waiting = sum(1 for line in self.words("folders") for _ in range(int(line.rsplit(b" ", 1)[1])))
        return (minute, self.sent, part(took, 0.5), part(took, 0.99), part(trips, 0.5), part(trips, 0.99), int(status["VmRSS"].split()[0]) / 1024,
                len(os.listdir(f"/proc/{self.daemon.pid}/fd")), int(status["Threads"]), os.path.getsize(self.store.file) / 1e6, waiting)

    def words(self, word):
        for user in USERS:
            done = subprocess.run([*self.store.words(word, "--wait"), user], capture_output=True)
            if done.returncode:
                raise SystemExit(f"{word} {user}: {done}")
            yield from done.stdout.splitlines()

    def run(self):
        self.began, rows = time.monotonic(), []
        calls = [(self.send, at, 3) for at in range(3)] + [(self.upload,)] + [(self.look, user) for user in USERS[:5]]
        workers = [threading.Thread(target=self.work, args=call, daemon=True) for call in calls]
        for worker in workers:
            worker.start()
        print("minute, messages, a delivery's 50th and 99th ms, a round trip's 50th and 99th ms, MiB, descriptors, threads, store's MB, messages that wait", flush=True)
        for minute in range(1, self.seconds // 60 + 1):
            time.sleep(max(0, self.began + 60 * minute - time.monotonic()))
            if self.daemon.poll() is not None or not all(worker.is_alive() for worker in workers):
                self.daemon.kill()
                raise SystemExit(f"the daemon has ended ({self.daemon.wait()}), or a client has: {self.faults}")
            rows.append(self.row(minute))
            print(" ".join(f"{value:.1f}" if isinstance(value, float) else str(value) for value in rows[-1]), flush=True)
        self.ends = True
        time.sleep(1)
        part = max(1, len(rows) // 6)
        for name, some in (("first", rows[:part]), ("last", rows[-part:])):
            print(name, " ".join(f"{sum(row[at] for row in some) / len(some):.1f}" for at in range(2, len(rows[0]))), flush=True)
        self.daemon.kill()
        moved = sum(len(names) for folder, _, names in os.walk(self.mail) if folder.endswith("/new"))
        print(f"{self.sent} messages were answered, {moved} files are in Maildirs", flush=True)


def main(words):
    values = {"--seconds": 3600, "--rate": 10}
    while words and words[0] in values:
        values[words[0]] = int(words[1])
        words = words[2:]
    moves = "--no-mail" not in words
    words = [word for word in words if word != "--no-mail"]
    Day(program_of(words)[0], values["--seconds"], values["--rate"], moves).run()


if __name__ == "__main__":
    main(words_of(__doc__))
