#!/usr/bin/env python3
"""Accounts that an administrator keeps up, over two processes: words beside an open session and beside mail that comes.

  tests/accounts.py [--sieved SIEVED] [TRIAL ..]       SIEVED: the program, crates/sieved/out/sieved where none is named

The words are run with --wait beside `sieved daemon`, which has the store. Prints a line for each trial, a last one that counts them, and
ends with 1 where one failed. `tests/run` runs it. It needs python3 alone.
"""
import base64, os, random, signal, sqlite3, subprocess, sys, tempfile, time
import trials
from managesieve import SIEVED, Store, connect, end

PROGRAM = [SIEVED]
LISTED, LOG_IN = [b'"m"\r\n', b"OK\r\n"], [b'NO "Log in first."\r\n']
AWAY = b'require "vacation"; vacation "Away.";'
CLOSE = "import sqlite3, sys; base = sqlite3.connect(sys.argv[1]); base.execute('UPDATE account SET rounds = 0'); base.commit(); base.close()"
# A thousand accounts more, whose lines are 140 octets long.
FILL = """import sqlite3, sys; base = sqlite3.connect(sys.argv[1]); name = lambda number: (b"a" * 60 + b"%04d" % number)
base.executemany("INSERT INTO account VALUES (?, ?, x'00', 1, x'00', NULL, 1, 1, 1)", [(name(number), b"b" * 60 + b"@example.org") for number in range(1_000)])
base.commit(); base.close()"""


class Host:
    """A daemon over a store of its own, and words beside it."""

    def __init__(self, *users):
        self.store = Store(users, PROGRAM[0])
        self.server, self.port = self.store.daemon()

    def __enter__(self):
        return self

    def __exit__(self, *_):
        end(self.server)

    def word(self, word, *more, data=b""):
        done = subprocess.run([*self.store.words(word, "--wait"), *more], input=data, capture_output=True)
        return done.returncode, done.stdout.decode() + done.stderr.decode()

    def close_all(self):
        """Closes all accounts in the tables, as a move to another machine does, while the daemon serves."""
        self.change(CLOSE)

    def change(self, program):
        """Changes the tables by SQL, under the store's locks."""
        waits = [part for name in ("wait", "lock") for part in ("flock", f"{self.store.file}.{name}")]
        subprocess.run([*waits, sys.executable, "-c", program, self.store.file], check=True)

    def word_on_a_full_disk(self, word, *more, data=b""):
        """The same where nothing of the output is taken."""
        with open("/dev/full", "wb") as full:
            done = subprocess.run([*self.store.words(word, "--wait"), *more], input=data, stdout=full, stderr=subprocess.PIPE)
        return done.returncode, done.stderr.decode()

    def client(self, user, password=b"secret"):
        client = connect(self.port)
        text = base64.b64encode(b"\0" + user.encode() + b"\0" + password)
        client.said = client.ask(b'AUTHENTICATE "PLAIN" "' + text + b'"')[-1]
        return client

    def deliver(self, user, sender, address, to=None):
        """A message that is to `address` by its field, and by its envelope too, or to another."""
        return self.word("deliver", "--from", sender, "--to", to or address, user, data=f"To: {address}\r\n\r\nx\r\n".encode())


def password():
    with Host("alice", "bob") as host:
        open_one = host.client("alice")
        assert open_one.put(b"m", b"keep;").startswith(b"OK")
        assert host.word("passwd", "alice", data=b"another\n") == (0, "changed alice\n")
        assert open_one.ask(b"LISTSCRIPTS") == LISTED, "an open session stays logged in"
        assert host.client("alice").said == b'NO "Authentication failed."\r\n'
        assert host.client("alice", b"another").said == b'OK "Logged in."\r\n'
        assert host.client("bob").said == b'OK "Logged in."\r\n', "another's password is as it was"
    return "the open session goes on; a new one wants the new password"


def salts():
    """Each password has a salt of its own, which the system gave."""
    with Host() as host:
        for name in "alice", "bob":
            assert host.word("adduser", name, f"{name}@example.org", data=b"secret\n") == (0, f"added {name}\n")
        assert host.word("passwd", "alice", data=b"secret\n") == (0, "changed alice\n")
    with sqlite3.connect(host.store.file) as store:
        rows = store.execute("SELECT salt, digest FROM account").fetchall()
    assert len({salt for salt, _ in rows}) == 2 and all(len(salt) == 16 and any(salt) for salt, _ in rows), rows
    assert len({digest for _, digest in rows}) == 2
    return "two users with one password have two salts, and two digests"


def address():
    with Host("alice") as host:
        client = host.client("alice")
        assert client.put(b"m", AWAY).startswith(b"OK") and client.ask(b'SETACTIVE "m"')[-1].startswith(b"OK")
        assert host.word("address", "alice", "a@example.net") == (0, "changed alice\n")
        assert host.deliver("alice", "bob@example.net", "alice@example.org", "a@example.net") == (0, "file INBOX\nvacation quiet 8\n")
        assert host.deliver("alice", "bob@example.net", "a@example.net") == (0, "file INBOX\nvacation sent\n")
        status, octets = host.word("queue", "alice", "1")
        assert status == 0 and octets.startswith("From: a@example.net\r\nTo: <bob@example.net>\r\n"), octets
        assert client.ask(b"LISTSCRIPTS") == [b'"m" ACTIVE\r\n', b"OK\r\n"]
    return "the answer comes from the new address, and mail to the old one isn't answered"


def removal():
    """A session of a removed account is told so, and a new account of the name answers nobody twice within the period."""
    with Host("alice", "bob") as host:
        client = host.client("alice")
        assert client.put(b"m", AWAY).startswith(b"OK") and client.ask(b'SETACTIVE "m"')[-1].startswith(b"OK")
        assert host.deliver("alice", "bob@example.net", "alice@example.org") == (0, "file INBOX\nvacation sent\n")
        assert host.word("remove", "alice") == (65, "sieved: user has mail\n")
        assert client.ask(b"LISTSCRIPTS") == [b'"m" ACTIVE\r\n', b"OK\r\n"]
        assert host.word("remove", "--mail", "alice") == (0, "removed alice\n")
        assert client.ask(b"NOOP") == [b'OK "Done."\r\n']
        assert client.ask(b"LISTSCRIPTS") == LOG_IN and client.ask(b"UNAUTHENTICATE") == LOG_IN
        assert host.deliver("alice", "bob@example.net", "alice@example.org") == (67, "sieved: no such user\n")
        assert host.client("alice").said == b'NO "Authentication failed."\r\n'
        assert host.word("adduser", "alice", "alice@example.org", data=b"third\n") == (0, "added alice\n")
        client = host.client("alice", b"third")
        assert client.ask(b"LISTSCRIPTS") == [b"OK\r\n"]
        assert client.put(b"m", AWAY).startswith(b"OK") and client.ask(b'SETACTIVE "m"')[-1].startswith(b"OK")
        assert host.deliver("alice", "bob@example.net", "alice@example.org") == (0, "file INBOX\nvacation quiet 9\n")
        assert host.deliver("alice", "carol@example.net", "alice@example.org") == (0, "file INBOX\nvacation sent\n")
        assert host.client("bob").ask(b"LISTSCRIPTS") == [b"OK\r\n"]
    return "the open session is logged out; the new account has nothing, and answers nobody twice"


def closed():
    """What is asked of a closed account is answered as of an unknown one, its mail may come again, and `open` gives it back as it was."""
    trials.need("flock")
    with Host("alice") as host:
        client = host.client("alice")
        assert client.put(b"m", b"keep;").startswith(b"OK")
        assert host.deliver("alice", "bob@example.net", "alice@example.org") == (0, "file INBOX\n")
        host.close_all()
        assert client.ask(b"NOOP") == [b'OK "Done."\r\n']
        assert client.ask(b'GETSCRIPT "m"') == LOG_IN and client.ask(b"UNAUTHENTICATE") == LOG_IN
        assert host.client("alice").said == b'NO "Authentication failed."\r\n'
        assert host.deliver("alice", "bob@example.net", "alice@example.org") == (75, "sieved: account is closed\n")
        for word, *more in ("folders",), ("show", "INBOX", "1"), ("queue",), ("notices",), ("passwd",), ("address", "a@example.org"):
            assert host.word(word, "alice", *more, data=b"x\n") == (67, "sieved: no such user\n"), word
        assert host.word("open", "alice") == (0, "opened alice\n")
        assert host.word("open", "alice") == (65, "sieved: user is open\n")
        assert client.ask(b"LISTSCRIPTS") == LOG_IN, "the session was logged out"
        assert host.client("alice").ask(b"LISTSCRIPTS") == LISTED
        assert host.word("folders", "alice") == (0, "INBOX 1\n")
        assert host.deliver("alice", "bob@example.net", "alice@example.org") == (0, "file INBOX\n")
    return "mail waits while it is closed; nothing is gone once it is open"


def scripts():
    """A script that a word stores is there for a session, and one that a session stores for a word."""
    with Host("alice", "bob") as host:
        client = host.client("alice")
        assert host.word("put", "alice", "m", data=b"discard;") == (0, "stored m\n")
        assert client.ask(b"LISTSCRIPTS") == LISTED
        assert client.put(b"a", b"keep;").startswith(b"OK")
        assert host.word("scripts", "alice") == (0, '"a"\r\n"m"\r\n')
        assert host.word("scripts", "alice", "a") == (0, "keep;")
        assert host.word("scripts", "alice", "x") == (65, "sieved: no such script\n")
        assert host.word("scripts", "bob") == (0, "") and host.word("scripts", "carol") == (67, "sieved: no such user\n")
        assert host.word("put", "--activate", "alice", "m", data=b"discard;") == (0, "stored m\n")
        assert client.ask(b"LISTSCRIPTS") == [b'"a"\r\n', b'"m" ACTIVE\r\n', b"OK\r\n"]
        assert host.deliver("alice", "bob@example.net", "alice@example.org") == (0, "discard\n")
        assert host.word("put", "alice", 'q"x', data=b"") == (0, 'stored q"x\n')
        assert host.word("scripts", "alice") == (0, '"a"\r\n"m" ACTIVE\r\n"q\\"x"\r\n')
    return "each sees what the other stored, and which script is active"


def edited():
    """What words change of a user's scripts a session sees, and the other way round; each in words what is refused."""
    with Host("alice", "bob") as host:
        client = host.client("alice")
        assert host.word("put", "alice", "m", data=b"discard;") == (0, "stored m\n")
        assert host.word("put", "alice", "n", data=b"keep;") == (0, "stored n\n")
        assert host.word("activate", "alice", "m") == (0, "activated m\n")
        assert client.ask(b"LISTSCRIPTS") == [b'"m" ACTIVE\r\n', b'"n"\r\n', b"OK\r\n"]
        assert host.deliver("alice", "bob@example.net", "alice@example.org") == (0, "discard\n")
        assert host.word("delete", "alice", "m") == (65, "sieved: script is active\n")
        assert client.ask(b'DELETESCRIPT "m"')[-1].startswith(b"NO (ACTIVE)"), "as the server says it"
        assert host.word("rename", "alice", "m", "n") == (65, "sieved: script exists\n")
        assert host.word("rename", "alice", "x", "y") == (65, "sieved: no such script\n")
        assert host.word("rename", "alice", "m", "a\nb") == (65, "sieved: bad script name\n")
        assert host.word("rename", "alice", "m", "o p") == (0, "renamed o p\n")
        assert client.ask(b"LISTSCRIPTS") == [b'"n"\r\n', b'"o p" ACTIVE\r\n', b"OK\r\n"]
        assert client.ask(b'SETACTIVE "n"')[-1].startswith(b"OK")
        assert host.word("delete", "alice", "o p") == (0, "deleted o p\n")
        assert host.word("delete", "alice", "o p") == (65, "sieved: no such script\n")
        assert host.word("deactivate", "alice") == host.word("deactivate", "alice") == (0, "deactivated alice\n")
        assert client.ask(b"LISTSCRIPTS") == [b'"n"\r\n', b"OK\r\n"]
        assert host.word("activate", "bob", "n") == (65, "sieved: no such script\n"), "another user's"
        assert host.word("activate", "carol", "n") == host.word("deactivate", "carol") == (67, "sieved: no such user\n")
        assert host.word_on_a_full_disk("activate", "alice", "n") == (75, "sieved: input or output failed\n")
        assert client.ask(b"LISTSCRIPTS") == [b'"n" ACTIVE\r\n', b"OK\r\n"], "it was done, and its line not written"
    return "activate, deactivate, delete, rename: what the server shows"


def of_all():
    """The queue and the notices of all users: each line behind its name, in their order; closed accounts have none."""
    with Host("bob", "Zoe", "alice") as host:
        assert host.word("queue", "--all") == host.word("notices", "--all") == (0, "")
        for user in "bob", "Zoe":
            assert host.word("put", "--activate", user, "m", data=b'redirect "c@example.com";')[0] == 0
            assert host.deliver(user, "d@example.net", f"{user}@example.org") == (0, "send c@example.com\n")
        assert host.word("put", "--activate", "alice", "m", data=b'require "vacation"; vacation "a"; vacation "b";')[0] == 0
        assert host.deliver("alice", "d@example.net", "alice@example.org")[0] == 0
        rows, lines = host.word("queue", "--all")[1].splitlines(), host.word("notices", "--all")[1].splitlines()
        assert [row.split(" ")[:3] for row in rows] == [["Zoe", "1", "redirect"], ["bob", "1", "redirect"]], rows
        assert [row.split(" ", 1)[1] for row in rows] == [host.word("queue", user)[1].rstrip("\n") for user in ("Zoe", "bob")]
        assert lines == ["alice " + host.word("notices", "alice")[1].rstrip("\n")] and lines[0].endswith(" vacation executed twice")
        assert subprocess.run(host.store.words("export", "--and-close", "Zoe"), capture_output=True).returncode == 0
        assert host.word("queue", "--all")[1].splitlines() == rows[1:]
        assert host.word("queue", "--all", "bob")[0] == host.word("queue")[0] == host.word("notices", "--all", "bob")[0] == host.word("notices", "--all", "--until", "5")[0] == 64
        assert host.word_on_a_full_disk("queue", "--all") == (75, "sieved: input or output failed\n")
    return "a line for each row and notice, with its user's name in front"


def users():
    """All users, beside a daemon: in order, with their scripts; closed and removed ones; an output that nobody reads keeps nobody out."""
    trials.need("flock")
    with Host() as host:
        add = lambda name: host.word("adduser", name, f"{name}@example.org", data=b"secret\n") == (0, f"added {name}\n")
        assert host.word("users") == (0, "")
        assert add("bob") and add("Zoe") and add("alice")
        assert host.word("put", "--activate", "alice", 'a "b', data=b"keep;") == (0, 'stored a "b\n')
        assert host.word("users") == (0, 'Zoe - Zoe@example.org\nalice "a \\"b" alice@example.org\nbob - bob@example.org\n')
        assert host.word("remove", "bob") == (0, "removed bob\n")
        assert host.word("users") == (0, 'Zoe - Zoe@example.org\nalice "a \\"b" alice@example.org\n')
        host.close_all()
        assert host.word("users") == (0, "closed Zoe\nclosed alice\n")
        assert host.word("open", "alice") == (0, "opened alice\n")
        assert host.word("users") == (0, 'closed Zoe\nalice "a \\"b" alice@example.org\n')
        assert host.word_on_a_full_disk("users") == (75, "sieved: input or output failed\n")
        assert host.word("users", "alice")[0] == 64
        host.change(FILL)
        with subprocess.Popen([*host.store.words("users", "--wait")], stdout=subprocess.PIPE) as reader:
            first = reader.stdout.read(1)
            assert host.deliver("alice", "bob@example.net", "alice@example.org") == (0, "file INBOX\n"), "the store is kept"
            rest = reader.stdout.read()
        listed = (first + rest).decode().splitlines()
        assert reader.returncode == 0 and len(listed) == 1_002 and listed == sorted(listed, key=lambda line: line.removeprefix("closed ").encode())
    return "in the order of octets; closed and removed ones; an output that isn't read keeps no mail out"


def by_environment():
    """SIEVED_DB names the store where --db is left out, and SIEVED_WAIT=1 says what --wait does."""
    trials.need("flock")
    with Host("alice") as host, Host("bob") as other:
        file, elsewhere = host.store.file, other.store.file
        here, there = host.word("users")[1], other.word("users")[1]
        assert here.startswith("alice ") and there.startswith("bob ")

        def word(*words, **env):
            variables = {name: value for name, value in os.environ.items() if not name.startswith("SIEVED_")}
            done = subprocess.run([PROGRAM[0], *words], env={**variables, **env}, capture_output=True)
            return done.returncode, done.stdout.decode() + done.stderr.decode()

        assert word("users", SIEVED_DB=file, SIEVED_WAIT="1") == (0, here)
        assert word("users", "--wait", SIEVED_DB=file) == (0, here)
        assert word("users", "--db", elsewhere, "--wait", SIEVED_DB=file) == (0, there), "the option counts before the variable"
        assert word("users", f"--db={elsewhere}", SIEVED_DB=file, SIEVED_WAIT="1") == (0, there)
        assert word("users")[0] == word("users", SIEVED_DB="")[0] == word("users", SIEVED_WAIT="1")[0] == 64
        assert "--db <FILE>" in word("users", SIEVED_DB="")[1]
        assert word("users", "--wait", SIEVED_DB=b"\xff")[0] == 64, "a value that is no text names nothing"
        holder = subprocess.Popen(["flock", f"{file}.lock", "cat"], stdin=subprocess.PIPE, stdout=subprocess.PIPE)
        holder.stdin.write(b"x")
        holder.stdin.flush()
        holder.stdout.read(1)
        for wait in "", "0", "11", "yes":
            assert word("users", SIEVED_DB=file, SIEVED_WAIT=wait) == (75, "sieved: busy\n"), wait
        holder.stdin.close()
        holder.wait()
    return "by variables as by options; the option counts first; a variable that is empty, no text or not 1 counts as none"


def put_refused():
    """What is refused, in PUTSCRIPT's order, leaves the scripts as they are."""
    with Host("alice") as host:
        assert host.word("put", "alice", "m", data=b"keep;\nfrob;") == (65, "line 2: unknown command\n")
        assert host.word("put", "alice", "x" * 129, data=b"#" + b"x" * 262_144) == (65, "sieved: bad script name\n")
        assert host.word("put", "alice", "m", data=b"#" + b"x" * 262_144) == (65, "sieved: script too large\n")
        assert host.word("put", "alice", "m", data=b"#" + b"x" * 262_142 + b"\n") == (0, "stored m\n")
        for number in range(31):
            assert host.word("put", "alice", f"s{number}", data=b"keep;") == (0, f"stored s{number}\n")
        assert host.word("put", "alice", "more", data=b"frob;") == (65, "sieved: too many scripts\n")
        assert host.word("put", "carol", "m", data=b"keep;") == (67, "sieved: no such user\n")
        assert host.word_on_a_full_disk("put", "alice", "m", data=b"stop;") == (75, "sieved: input or output failed\n")
        assert host.word("scripts", "alice", "m") == (0, "stop;"), "it was stored, and its answer not written"
    return "bad name, too large, too many, not valid"


def notices():
    """Notices are gone only once they are written."""
    with Host("alice") as host:
        assert host.word("put", "--activate", "alice", "m", data=b'require "vacation"; vacation "a"; vacation "b";') == (0, "stored m\n")
        for moment in 5, 9, 7:
            told = subprocess.run([*host.store.words("deliver", "--wait"), "--to", "alice@example.org", "--at", str(moment), "alice"],
                                  input=b"To: alice@example.org\r\n\r\nx\r\n", capture_output=True).stdout
            assert told == b"file INBOX\nnotice vacation executed twice\n", told
        line = "{} vacation executed twice\n".format
        assert host.word_on_a_full_disk("notices", "--until", "9", "alice") == (75, "sieved: input or output failed\n")
        assert host.word("notices", "alice") == (0, line(5) + line(9) + line(7))
        assert host.word("notices", "--until", "7", "alice") == (0, line(5) + line(7))
        assert host.word("notices", "alice") == (0, line(9))
        assert host.word("notices", "--until", "8", "alice") == (0, "")
        assert host.word("notices", "--until", "x", "alice") == (64, "sieved: bad argument\n")
        assert host.word("notices", "--until", str(2 ** 63 - 1), "alice") == (0, line(9))
        assert host.word("notices", "alice") == (0, "")
    return "a full disk takes none; those up to a moment go, and the others stay"


# A thousand messages: into two folders, sent on, answered, or a notice, by their field X-Way.
WAYS = b"""require ["fileinto", "copy", "vacation"];
if header :is "X-Way" "list" { fileinto "lists"; fileinto "all"; stop; }
if header :is "X-Way" "on" { redirect :copy "carol@example.com"; }
if header :is "X-Way" "away" { vacation "Away."; }
if header :is "X-Way" "twice" { vacation "a"; vacation "b"; }
"""
SOME = [["list", "on", "away", "twice", "none"][number % 5] for number in range(1_000)]


def word_of(store, word, *more, data=b""):
    """Runs a word over a store: its status, and what it wrote on both streams."""
    done = subprocess.run(store.words(word, *more), input=data, capture_output=True)
    return done.returncode, done.stdout, done.stderr


def wrote(store, word, *more, data=b""):
    status, said, told = word_of(store, word, *more, data=data)
    assert (status, told) == (0, b""), (word, more, status, told)
    return said


def way(number, kind):
    """The sender of a message, and its octets."""
    sender = f"s{number}@example.net"
    return sender, f"From: {sender}\r\nTo: alice@example.org\r\nSubject: {number}\r\nMessage-ID: <way{number}@example.net>\r\nX-Way: {kind}\r\n\r\n{'A line.' * (number % 50)}\r\n".encode()


def quick_store(users):
    """A store that needs no disk, where there is a folder in memory."""
    kept, tempfile.tempdir = tempfile.tempdir, "/dev/shm" if os.path.isdir("/dev/shm") else tempfile.tempdir
    try:
        return Store(users, PROGRAM[0])
    finally:
        tempfile.tempdir = kept


def filled(ways):
    """A store with alice's account, to whom these came, and bob's."""
    store = quick_store(["alice", "bob"])
    wrote(store, "put", "--activate", "alice", "main", data=WAYS)
    wrote(store, "put", "alice", "other", data=b"keep;")
    for number, kind in enumerate(ways):
        sender, octets = way(number, kind)
        wrote(store, "deliver", "--from", sender, "--to", "alice@example.org", "--at", str(1_700_000_000 + number), "alice", data=octets)
    for id in "1", "7":
        wrote(store, "done", "alice", id)
    return store


def looks(store):
    """What the words tell of alice's account."""
    folders = [line.rsplit(b" ", 1) for line in wrote(store, "folders", "alice").splitlines()]
    ids = [line.split(b" ")[0] for line in wrote(store, "queue", "alice").splitlines()]
    told = [wrote(store, word, "alice") for word in ("folders", "queue", "notices", "scripts")]
    told += [wrote(store, "scripts", "alice", name) for name in ("main", "other")]
    told += [wrote(store, "show", "alice", name, str(number)) for name, count in folders for number in sorted({1, int(count), *range(7, int(count), 41)})]
    return told + [wrote(store, "queue", "alice", id) for id in ids[::23]] + [line for line in wrote(store, "users").splitlines() if b"alice" in line]


def exported():
    """An account of a thousand messages leaves one store and enters another: all words tell the same of it, and its text is the same."""
    old, new = filled(SOME), quick_store(["bob"])
    text = wrote(old, "export", "alice")
    assert wrote(old, "export", "alice") == text and wrote(old, "users").count(b"\n") == 2
    assert wrote(new, "import", data=text) == b"imported alice\n"
    there = looks(old)
    assert looks(new) == there and len(there) > 60, "the words tell something else"
    assert wrote(new, "export", "alice") == text
    for sender, wanted in ("s2@example.net", b"file INBOX\nvacation quiet 9\n"), ("new@example.net", b"file INBOX\nvacation sent\n"):
        for store in old, new:
            data = f"From: {sender}\r\nTo: alice@example.org\r\nX-Way: away\r\n\r\nx\r\n".encode()
            assert wrote(store, "deliver", "--from", sender, "--to", "alice@example.org", "--at", "1700001000", "alice", data=data) == wanted
    assert looks(new) == looks(old), "the next message, row and number are others"
    assert word_of(new, "import", data=text) == (65, b"", b"sieved: user exists\n")
    for wrong in text[:-1], text[:-100], text + b"\n", text.replace(b"A line.", b"A mine.", 1), b"":
        assert word_of(Store([], PROGRAM[0]), "import", data=wrong) == (65, b"", b"sieved: bad input\n")
    return f"{len(text):,} octets, which come back the same; {len(there)} answers of words are the same"


def largest():
    """What a store holds at the most goes out and comes in as it was: a script, a message, flags and names at their limits, and rows past
    them, as programs of before left them."""
    name, folder, script = "a" * 64, "é" * 127 + "x", "\N{MATHEMATICAL FRAKTUR SMALL S}" * 128
    flags = ", ".join(f'"k{number:03}{"f" * 124}"' for number in range(100))
    text = f'require ["fileinto", "copy", "imap4flags", "vacation"]; fileinto :flags [{flags}] "{folder}"; redirect :copy "carol@example.com"; vacation "Away."; keep;\n#'.encode()
    head = f"From: bob@example.net\r\nTo: {name}@example.org\r\nSubject: {'x' * 900}\r\n\r\n".encode()
    old, new = (Store(users, PROGRAM[0]) for users in ([name], []))
    wrote(old, "put", "--activate", name, script, data=text.ljust(262_143, b"x") + b"\n")
    for number in range(31):
        wrote(old, "put", name, f"s{number}", data=b"keep;")
    told = f"file {folder}\nfile INBOX\nsend carol@example.com\n".encode()
    for sender, said, filler in (("bob@example.net", b"vacation sent\n", b"x"), ("b" * 1_012 + "@example.net", None, b"y")):
        whole = wrote(old, "deliver", "--from", sender, "--to", f"{name}@example.org", name, data=head.ljust(33_554_432, filler))
        assert whole.startswith(told) and said in (None, whole[len(told):]), whole
    base = sqlite3.connect(old.file)
    assert base.execute("SELECT max(length(flags)) FROM copy").fetchall() == [(12_899,)]
    (last,) = base.execute("SELECT max(id) FROM outgoing").fetchone()
    base.execute("UPDATE outgoing SET message = CAST(message || ? AS BLOB) WHERE id = 2", (b"x" * 33_700_000,))
    base.execute("UPDATE message SET bytes = CAST(bytes || ? AS BLOB) WHERE id = (SELECT max(id) FROM message)", (b"x" * 10_000_000,))
    base.commit()
    base.close()
    text = wrote(old, "export", name)
    wrote(new, "import", data=text)
    assert wrote(new, "export", name) == text, "what came in goes out as something else"
    for words in ("folders", name), ("queue", name), ("show", name, folder, "2"), ("scripts", name, script), *(("queue", name, str(id)) for id in range(1, last + 1)):
        assert wrote(new, *words) == wrote(old, *words), words
    return f"{len(text):,} octets; the largest row has {len(wrote(new, 'queue', name, '2')):,}"


def exported_daemon():
    """Beside a daemon: an account is printed and closed, and is that of the other daemon's store then, with its password."""
    with Host("alice", "bob") as old, Host() as new:
        client = old.client("alice")
        assert client.put(b"m", b"keep;").startswith(b"OK")
        assert old.deliver("alice", "bob@example.net", "alice@example.org") == (0, "file INBOX\n")
        text = subprocess.run(old.store.words("export", "--wait", "--and-close", "alice"), capture_output=True, check=True).stdout
        assert client.ask(b"LISTSCRIPTS") == LOG_IN and old.client("bob").said == b'OK "Logged in."\r\n'
        assert old.deliver("alice", "bob@example.net", "alice@example.org") == (75, "sieved: account is closed\n")
        assert old.word("users") == (0, "closed alice\nbob - bob@example.org\n")
        assert old.word("export", "alice") == (67, "sieved: no such user\n")
        assert new.word("import", data=text) == (0, "imported alice\n")
        client = new.client("alice")
        assert client.said == b'OK "Logged in."\r\n' and client.ask(b"LISTSCRIPTS") == LISTED
        assert new.deliver("alice", "bob@example.net", "alice@example.org") == (0, "file INBOX\n")
        assert new.word("folders", "alice") == (0, "INBOX 2\n")
        assert old.word("open", "alice") == (0, "opened alice\n")
        assert subprocess.run(old.store.words("export", "--wait", "alice"), capture_output=True, check=True).stdout == text
        assert old.word_on_a_full_disk("export", "--and-close", "alice") == (75, "sieved: input or output failed\n")
        assert old.word("users") == (0, "alice - alice@example.org\nbob - bob@example.org\n")
    return "closed behind its text, and open in the other store; a full disk closes nothing"


def exported_short():
    """Who reads the text goes away, or the program is killed: the account is open, or the text is whole."""
    store = filled(SOME[:300])
    text = wrote(store, "export", "alice")
    is_open = lambda: b"closed alice\n" not in wrote(store, "users")
    assert len(text) > 70_000, "a pipe has room for all of it"
    for count in 0, 1, 1_000:
        with subprocess.Popen(store.words("export", "--and-close", "alice"), stdout=subprocess.PIPE, stderr=subprocess.PIPE, bufsize=0) as process:
            while count:
                count -= len(process.stdout.read(count))
            process.stdout.close()
            told = process.stderr.read()
        assert (process.returncode, told) == (75, b"sieved: input or output failed\n") and is_open(), (process.returncode, told)
    began = time.time()
    wrote(store, "export", "alice")
    whole, draw, counts = time.time() - began, random.Random(7), {True: 0, False: 0}
    for turn in range(60):
        with tempfile.TemporaryFile() as file:
            with subprocess.Popen(store.words("export", "--and-close", "alice"), stdout=file, stderr=subprocess.DEVNULL) as process:
                time.sleep(draw.random() * 1.5 * whole)
                process.send_signal(signal.SIGKILL)
            file.seek(0)
            written = file.read()
        opened = is_open()
        counts[opened] += 1
        assert text.startswith(written), "what is written is no front of the text"
        assert opened or written == text, f"turn {turn}: closed, and {len(written)} of {len(text)} octets are written"
        if not opened:
            wrote(store, "open", "alice")
        elif written != text:
            assert word_of(Store([], PROGRAM[0]), "import", data=written) == (65, b"", b"sieved: bad input\n")
    assert wrote(store, "export", "alice") == text
    return f"killed 60 times: {counts[True]} left it open, {counts[False]} closed it behind its whole text"


def check():
    """Scripts are checked in files and on standard input, without a store."""
    with tempfile.TemporaryDirectory() as folder:
        def checked(*files, data=b"", out=subprocess.PIPE):
            done = subprocess.run([PROGRAM[0], "check", *files], input=data, stdout=out, stderr=subprocess.PIPE, cwd=folder)
            return done.returncode, (done.stdout or b"").decode(), done.stderr.decode()

        for name, text in {"good": b"keep;", "bad": b"keep;\nfrob;", "none": b"", "fits": b"#" + b"x" * 262_142 + b"\n", "large": b"#" + b"x" * 262_143 + b"\n"}.items():
            with open(f"{folder}/{name}", "wb") as file:
                file.write(text)
        os.mkdir(f"{folder}/folder")
        assert checked(data=b"keep;") == (0, "", "") and checked() == (0, "", "")
        assert checked(data=b"keep;\nfrob;") == (65, "line 2, column 1: unknown command \"frob\"\n", "")
        assert checked(data=b"#" + b"x" * 262_144) == (65, "", "sieved: script too large\n")
        assert checked("good", "none", "fits", data=b"frob;") == (0, "", "")
        assert checked("bad") == (65, "bad:2:1: unknown command \"frob\"\n", "")
        assert checked("good", "bad", "large", "bad") == (65, "bad:2:1: unknown command \"frob\"\n" * 2, "large: script too large\n")
        assert checked("absent", "bad", "good") == (75, "bad:2:1: unknown command \"frob\"\n", "absent: no such file\n")
        assert checked("folder") == (75, "", "folder: is a directory\n")
        assert checked(*["bad"] * 300, "good") == (65, "bad:2:1: unknown command \"frob\"\n" * 300, "")
        with open("/dev/full", "wb") as full:
            assert checked("bad", out=full) == (75, "", "sieved: input or output failed\n")
        assert checked("--frob")[0] == 64
    return "lines for those that are wrong, and the worst status"


TRIALS = {trial.__name__: trial for trial in (password, salts, address, closed, removal, users, scripts, edited, of_all, by_environment, put_refused, notices, exported, largest, exported_daemon, exported_short, check)}

if __name__ == "__main__":
    trials.main(TRIALS, lambda program: PROGRAM.__setitem__(0, program))
