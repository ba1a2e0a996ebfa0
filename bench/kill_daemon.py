#!/usr/bin/env python3
"""Kills `sieved daemon` at random moments under load, and looks for what it had acknowledged.

  bench/kill_daemon.py [--mail] [--senders N] [--users N] [SIEVED [COUNT]]      500 times where no COUNT is named

--mail: the daemon moves mail into Maildirs; --senders N: so many clients of LMTP in place of four; --users N: so many users in
place of two. Each message is to three of them at most, and two clients of ManageSieve put scripts; then the daemon is killed by SIGKILL and started again on the same store, two
times of three at a moment when an answer is awaited. After each kill every message that was answered 250 stands in its user's folder
or Maildir, every script that was answered OK is there as it was put last (or as the one on its way), and a message stands there twice
only where it was sent again, or in folder and Maildir where it was on its way: 64 of them at most. It prints how many kills came while
an answer was awaited (to the dot of a text, to a script), and what was found.
"""
import os, random, re, shutil, socket, sqlite3, subprocess, sys, tempfile, threading, time

from measure import program_of, words_of
import managesieve
from beside_dovecot import free_port, wait_for

SENDERS, UPLOADERS, USERS = 4, 2, ["alice", "bob"]
# To so many users a message is at most.
RECIPIENTS = 3
# So many messages of a folder move together at most.
TOGETHER = 64


class Load:
    """What the clients sent, and what they were answered."""

    def __init__(self):
        self.lock = threading.Lock()
        self.sent, self.answered = {}, {}
        self.awaited = self.kills = 0
        self.puts = {at: [] for at in range(UPLOADERS)}
        self.stored = {at: -1 for at in range(UPLOADERS)}


class Sender(threading.Thread):
    def __init__(self, load, port, at):
        super().__init__(daemon=True)
        self.load, self.port, self.at = load, port, at

    def run(self):
        try:
            sock = socket.create_connection(("127.0.0.1", self.port), timeout=20)
            lines = sock.makefile("rb")
            self.reply(lines)
            sock.sendall(b"LHLO localhost\r\n")
            self.reply(lines)
            while True:
                self.deliver(sock, lines)
        except (OSError, EOFError):
            pass

    def deliver(self, sock, lines):
        token = f"{random.getrandbits(64):016x}"
        users = random.sample(USERS, random.randint(1, min(len(USERS), RECIPIENTS)))
        for user in users:
            with self.load.lock:
                self.load.sent[token, user] = self.load.sent.get((token, user), 0) + 1
        sock.sendall(b"MAIL FROM:<x@example.net>\r\n" + b"".join(b"RCPT TO:<%s@example.org>\r\n" % user.encode() for user in users) + b"DATA\r\n")
        for code in [b"250"] * (1 + len(users)) + [b"354"]:
            self.expect(lines, code)
        size = random.choice([0, 100, 10_000, 200_000])
        sock.sendall(b"Message-ID: <%s@example.net>\r\n\r\n" % token.encode() + b"x" * size)
        self.load.awaited += 1
        sock.sendall(b"\r\n.\r\n")
        for user in users:
            self.expect(lines, b"250")
            with self.load.lock:
                self.load.answered[token, user] = True
        self.load.awaited -= 1

    def reply(self, lines):
        while True:
            line = lines.readline()
            if not line.endswith(b"\r\n"):
                raise EOFError
            if line[3:4] != b"-":
                return line

    def expect(self, lines, code):
        line = self.reply(lines)
        if not line.startswith(code):
            print(f"unexpected: {line}", flush=True)
            raise EOFError


class Uploader(threading.Thread):
    def __init__(self, load, port, at):
        super().__init__(daemon=True)
        self.load, self.port, self.at = load, port, at

    def run(self):
        try:
            client = managesieve.connect(self.port)
            client.log_in(USERS[self.at])
            while True:
                number = len(self.load.puts[self.at])
                self.load.puts[self.at].append(number)
                self.load.awaited += 1
                if not client.ask(b'PUTSCRIPT "kept"', b"# %d\r\nkeep;\r\n" % number)[-1].startswith(b"OK"):
                    return print("a script wasn't taken", flush=True)
                self.load.stored[self.at] = number
                self.load.awaited -= 1
        except (OSError, managesieve.Gone):
            pass


def rows(file):
    """The messages of each user by token, and each user's script, of a copy of the store as the kill left it."""
    with tempfile.TemporaryDirectory() as room:
        for end in "", "-wal":
            if os.path.exists(file + end):
                shutil.copyfile(file + end, f"{room}/mail.db{end}")
        store = sqlite3.connect(f"{room}/mail.db")
        found = {}
        for owner, head in store.execute("SELECT copy.owner, substr(message.bytes, 1, 400) FROM copy JOIN message ON message.owner = copy.owner AND message.id = copy.id"):
            token = re.search(rb"Message-ID: <([0-9a-f]{16})@", head)
            key = token[1].decode(), owner.decode()
            found[key] = found.get(key, 0) + 1
        scripts = {owner.decode(): text for owner, text in store.execute("SELECT owner, text FROM script")}
        store.close()
        return found, scripts


def moved(room, seen):
    """How often each message stands in the Maildirs, those that were looked at before among them."""
    for user in USERS:
        folder = f"{room}/{user}/new"
        for name in os.listdir(folder) if os.path.isdir(folder) else []:
            if (user, name) not in seen:
                with open(f"{folder}/{name}", "rb") as file:
                    token = re.search(rb"Message-ID: <([0-9a-f]{16})@", file.read(400))
                seen[user, name] = token[1].decode(), user
    counts = {}
    for key in seen.values():
        counts[key] = counts.get(key, 0) + 1
    return counts


def check(file, load, mail, seen):
    """What was acknowledged is there, and nothing more often than it may be; answers how many messages were on their way."""
    found, scripts = rows(file)
    there = moved(mail, seen) if mail else {}
    for key in load.answered:
        if not found.get(key) and not there.get(key):
            sys.exit(f"a message that was answered 250 is gone: {key}")
    both = 0
    for key in {*found, *there}:
        count, spare = found.get(key, 0) + there.get(key, 0), load.sent.get(key, 0)
        if count > spare:
            both += count - spare
    if both > TOGETHER:
        sys.exit(f"{both} messages are there once more than they were sent, after {load.kills} kills")
    for at in range(UPLOADERS):
        text = scripts.get(USERS[at], b"# -1")
        number = int(re.match(rb"# (-?\d+)", text)[1])
        if not load.stored[at] <= number < max(len(load.puts[at]), 1):
            sys.exit(f"the script of {USERS[at]} is {number}, and {load.stored[at]} was answered OK")
    return both


def number_of(option, number, words):
    """The number behind an option, or else this one, and the other words."""
    if option not in words:
        return number, words
    at = words.index(option)
    return int(words[at + 1]), words[:at] + words[at + 2:]


def main(words):
    moves, words = "--mail" in words, [word for word in words if word != "--mail"]
    senders, words = number_of("--senders", SENDERS, words)
    users, words = number_of("--users", len(USERS), words)
    USERS.extend(f"user{at}" for at in range(len(USERS), users))
    program, words = program_of(words)
    count = int(words[0]) if words else 500
    store = managesieve.Store(USERS, sieved=program)
    load, waiting, seen, both, most = Load(), 0, {}, 0, 0
    mail = f"{os.path.dirname(store.file)}/mail" if moves else None
    for user in USERS if moves else []:
        for part in "tmp", "new", "cur":
            os.makedirs(f"{mail}/{user}/{part}")
    for at in range(count):
        lmtp, sieve = free_port(), free_port()
        words = store.words("daemon", "--managesieve", str(sieve), "--lmtp", str(lmtp), "--quiet", *(["--mail", mail] if moves else []))
        process = subprocess.Popen(words, stdin=subprocess.DEVNULL, stdout=subprocess.DEVNULL, stderr=subprocess.DEVNULL)
        wait_for(lmtp), wait_for(sieve)
        load.awaited = 0
        clients = [Sender(load, lmtp, at) for at in range(senders)] + [Uploader(load, sieve, at) for at in range(UPLOADERS)]
        for client in clients:
            client.start()
        time.sleep(random.uniform(0.02, 0.3))
        until = time.monotonic() + (0.2 if at % 3 else 0)
        while load.awaited <= 0 and time.monotonic() < until:
            time.sleep(0.0005)
        waiting += load.awaited > 0
        load.kills += 1
        process.kill()
        process.wait()
        for client in clients:
            client.join()
        both = check(store.file, load, mail, seen)
        most = max(most, both)
    print(f"{count} kills, {waiting} of them while an answer was awaited: each of {len(load.answered):,} messages that were answered 250 is there, "
          f"and each of {sum(load.stored.values()):,} scripts; {most} messages at most once more than they were sent, on their way into a Maildir", flush=True)


if __name__ == "__main__":
    main(words_of(__doc__))
