#!/usr/bin/env python3
"""Tries packaging/sieved-deliver, sieved-queue and sieved-drain with what strangers send, programs that are killed and disks that are full,
and packaging/sieved with what an owner or a stranger plants where root finds a store.

  tests/scripts.py [--sieved SIEVED] [TRIAL ..]       SIEVED: the program, crates/sieved/out/sieved where none is named

Prints a line for each trial, a last one that counts them, and ends with 1 where one failed. `tests/run` runs it. A trial whose
tool (awk, flock, mkswap, shellcheck, strace) or right (root, to mount a small disk, to limit memory) isn't there is left out.
"""
import collections, hashlib, itertools, os, pwd, random, re, shutil, signal, sqlite3, subprocess, tempfile, time
import mailboxes, managesieve, trials
from contextlib import contextmanager

TOP = os.path.dirname(managesieve.HERE)
DOCS = os.environ.get("SIEVED_DOCS", f"{TOP}/docs")
PACKAGING = os.environ.get("SIEVED_PACKAGING", f"{TOP}/packaging")
PROGRAM = [managesieve.SIEVED]
MAIL = b"From: bob@example.net\r\nTo: alice@example.org\r\nSubject: %s\r\n\r\nHi\r\n"
NUMBERS = itertools.count(1)
STAND_IN = """#!/bin/sh
cat > /dev/null
printf '%s' "$PRINTS"
printf '%s' "$SAYS" >&2
[ -z "$DIES" ] || kill -9 $$
exit "$ENDS"
"""
SENDMAIL = """#!/usr/bin/env python3
import hashlib, os, sys
message = hashlib.sha256(sys.stdin.buffer.read()).hexdigest()
with open(os.environ["RUNS"], "a") as runs:
    print(repr(([os.fsencode(word) for word in sys.argv[1:]], message)), file=runs)
sys.exit(int(os.environ.get("ENDS", 0)))
"""


class Host(managesieve.Store):
    """A store with its users, beside it a folder for Maildirs, and the scripts over both."""

    def __init__(self, *users):
        super().__init__(users, PROGRAM[0])
        self.room = self.folder.name
        self.mail = f"{self.room}/mail"
        os.mkdir(self.mail)
        self.env = {**os.environ, "SIEVED": self.sieved, "SIEVED_DB": self.file, "SIEVED_MAIL": self.mail,
                    "SIEVED_DRAIN": f"{PACKAGING}/sieved-drain", "RUNS": f"{self.room}/runs", "SENDMAIL": self.program("sendmail", SENDMAIL)}

    def program(self, name, text):
        with open(f"{self.room}/{name}", "w") as file:
            file.write(text)
        os.chmod(file.name, 0o755)
        return file.name

    def start(self, script, *words, **env):
        return subprocess.Popen([f"{PACKAGING}/{script}", *words], env={**self.env, **env}, stdin=subprocess.PIPE,
                                stdout=subprocess.PIPE, stderr=subprocess.PIPE, start_new_session=True)

    def call(self, script, *words, data=b"", **env):
        """The status of a script, and what it printed and said."""
        process = self.start(script, *words, **env)
        printed, said = process.communicate(data, timeout=120)
        return process.returncode, printed, said

    def deliver(self, *words, data=None, **env):
        """A message with a body of its own, where none is given, for one is sent on once."""
        return self.call("sieved-deliver", *words, data=data or MAIL % b"x" + b"%d\r\n" % next(NUMBERS), **env)

    def script(self, user, text):
        process, client = self.session("--wait")
        client.log_in(user)
        assert client.put(b"main", text).startswith(b"OK") and client.ask(b'SETACTIVE "main"')[-1].startswith(b"OK"), text
        client.ask(b"LOGOUT")
        client.close()
        process.wait()

    def stored(self):
        """The messages in the store."""
        with sqlite3.connect(self.file) as base:
            found = [octets for octets, in base.execute("SELECT message.bytes FROM copy JOIN message USING (owner, id)")]
        base.close()
        return found

    def moved(self):
        """The messages in Maildirs."""
        found = []
        for folder, _, files in os.walk(self.mail):
            for name in files if folder.endswith(("/new", "/cur")) else []:
                with open(f"{folder}/{name}", "rb") as file:
                    found.append(file.read())
        return found

    def rows(self, user):
        """Sender, target and SHA-256 of the message of each row of the user's queue, by its number."""
        with sqlite3.connect(self.file) as base:
            found = base.execute("SELECT id, sender, target, message FROM outgoing WHERE owner = ?", (user.encode(),)).fetchall()
        base.close()
        return {number: (sender, target, hashlib.sha256(message).hexdigest()) for number, sender, target, message in found}

    def runs(self):
        """The words of each run of the stand-in for sendmail, and the SHA-256 of what it read."""
        if not os.path.exists(self.env["RUNS"]):
            return []
        with open(self.env["RUNS"]) as file:
            return [eval(line) for line in file]


@contextmanager
def small_disk(folder, size):
    """A file system of its own, of so many kB, in place of an empty folder."""
    trials.need_root()
    if subprocess.run(["mount", "-t", "tmpfs", "-o", f"size={size}k", "tmpfs", folder], capture_output=True).returncode:
        raise trials.LeftOut("no mount")
    try:
        yield
    finally:
        subprocess.run(["umount", folder], check=True)


# deliver


def deliver_statuses():
    host = Host("alice")
    words = "--to", "alice@example.org"
    assert host.deliver("--no-drain", *words, "alice")[0] == 0 and len(host.stored()) == 1 and not host.moved()
    assert host.deliver(*words, "--", "alice")[0] == 0 and not host.stored() and len(host.moved()) == 2
    assert host.deliver(*words, "carol")[0] == 67
    assert host.deliver(*words, "alice", data=b"x" * 33_554_433)[0] == 65
    assert host.deliver("--to", "a" * 1_025, "alice")[0] == 65
    assert host.deliver(*words, "--at", "253402300800", "alice")[0] == 65
    assert host.deliver("--wrong", "alice")[0] == 75
    assert host.deliver(*words, "alice", SIEVED=f"{host.room}/absent")[0] == 75
    assert host.deliver(*words, "alice", SIEVED_DB=f"{host.room}/absent.db")[0] == 75
    with open(f"{host.room}/foreign.db", "w") as file:
        file.write("no database\n" * 100)
    assert host.deliver(*words, "alice", SIEVED_DB=file.name)[0] == 75
    with sqlite3.connect(host.file) as base:
        base.execute("UPDATE meta SET value = 1")
    base.close()
    assert host.deliver(*words, "alice")[0] == 75
    return "0, 65, 67 as the message has it; a store that is absent, foreign or of another version, an absent program, a wrong word: 75"


def deliver_faults():
    """What the program says decides, and nothing of what it prints: a folder may have any name."""
    host = Host()
    own = "message too large", "bad envelope address", "bad moment"
    other = "not a sieved database", "bad user", "no such row", "bad input", ""
    stand_in = host.program("stand-in", STAND_IN)
    wanted = [(65, f"sieved: {text}\n", "", 65) for text in own] + [(65, f"sieved: {text}\n", "", 75) for text in other]
    wanted += [(status, "sieved: message too large\n", "", 75) for status in (1, 2, 64, 66, 69, 75, 126, 127, 255)]
    wanted += [(65, "sieved: not a sieved database\n", f"file x\nsieved: {text}\n", 75) for text in own]
    wanted += [(65, "sieved: message too large\nsieved: store failed\n", "", 75), (65, "x sieved: message too large\n", "", 75),
               (65, "one\nsieved: bad moment\ntwo\n", "", 65), (67, "sieved: no such user\n", "", 67), (0, "", "5.1.1 x\n", 0)]
    for status, says, prints, want in wanted:
        ended, printed, said = host.deliver("--no-drain", "alice", SIEVED=stand_in, ENDS=str(status), SAYS=says, PRINTS=prints)
        assert (ended, printed, said) == (want, prints.encode(), says.encode()), (status, says, prints, ended, printed, said)
    assert host.deliver("--no-drain", "alice", SIEVED=stand_in, DIES="yes")[0] == 75
    return f"{len(wanted)} endings and a program that is killed"


def deliver_cut():
    """A script of which only the first lines are there, as on a full disk, doesn't tell a mail server of a delivery that wasn't."""
    host = Host("alice")
    with open(f"{PACKAGING}/sieved-deliver") as file:
        lines = file.read().splitlines(keepends=True)
    first = 1 + next(at for at, line in enumerate(lines) if line.startswith(("trap", '"$sieved"')))
    before = 0
    for count in range(first, len(lines)):
        script = host.program("cut", "".join(lines[:count]))
        done = subprocess.run([script, "--no-drain", "--to", "a@b", "alice"], input=MAIL % b"x", capture_output=True, env=host.env)
        stored = len(host.stored())
        assert done.returncode == 75 or done.returncode == 0 and stored > before, (count, done)
        before = stored
    return f"cut after each of the lines {first} to {len(lines) - 1}: 75, or the message is in the store"


def deliver_killed():
    host = Host("alice")
    began = time.time()
    host.deliver("--to", "alice@example.org", "alice")
    whole = time.time() - began
    accepted = set()
    for number in range(40):
        message = MAIL % b"%d" % number
        process = host.start("sieved-deliver", "--to", "alice@example.org", "alice")
        process.stdin.write(message)
        process.stdin.close()
        time.sleep(random.uniform(0, 1.5 * whole))
        if process.poll() is None:
            os.killpg(process.pid, signal.SIGKILL)
        if process.wait() == 0:
            accepted.add(message)
        process.stdout.close()
        process.stderr.close()
    assert 0 < len(accepted) < 40, len(accepted)
    host.call("sieved-drain", "alice")
    there = {*host.stored(), *host.moved()}
    assert accepted <= there, accepted - there
    left = {name for name in os.listdir(host.room) if not name.startswith("mail")} - {"sendmail"}
    assert not left, left
    return f"40 killed at a random moment, {len(accepted)} of them had ended with 0: each is there"


def deliver_full_disk():
    host = Host()
    disk = f"{host.room}/disk"
    os.mkdir(disk)
    with small_disk(disk, 600):
        host.file = host.env["SIEVED_DB"] = f"{disk}/mail.db"
        host.run("init")
        host.run("adduser", "--salt", os.urandom(16).hex(), "alice", "alice@example.org", data=b"secret\n")
        message = MAIL % b"x" + b"x" * 20_000
        statuses = [host.deliver("--no-drain", "--to", "a@b", "alice", data=message)[0] for _ in range(60)]
        kept = shutil.copy(host.file, host.room), shutil.copy(f"{host.file}-wal", host.room)
    host.file = kept[0]
    assert {*statuses} == {0, 75}, statuses
    assert len(host.stored()) >= statuses.count(0), (statuses, len(host.stored()))
    return f"{statuses.count(0)} deliveries, then 75: each that ended with 0 is there"


# queue


def checked_runs(host, user, before):
    """Runs the queue's script; each row that may go went once, to its target alone, and no other. Returns how many went."""
    status, printed, said = host.call("sieved-queue", user)
    may_go = {number: row for number, row in before.items() if mailboxes.is_mailbox(row[1]) and (not row[0] or mailboxes.is_mailbox(row[0]))}
    wanted = [([b"-i", b"-f", sender or b"<>", b"--", target], message) for sender, target, message in may_go.values()]
    found = host.runs()
    assert sorted(found) == sorted(wanted), [run for run in wanted + found if (run in wanted) != (run in found)]
    assert status == 0 and host.rows(user).keys() == before.keys() - may_go.keys(), (status, host.rows(user), said)
    lines = said.decode(errors="replace").splitlines()
    assert len(lines) == len(before) - len(may_go), lines
    for line in lines:
        number, look, command = re.fullmatch(r"sieved-queue: \S+ (\d+): .*; this shows it: (.*); this takes it off: (.*)", line).groups()
        if int(number) % 20 == 0:
            shown = subprocess.run(["sh", "-c", look.removesuffix(" | cat -v")], capture_output=True)
            assert (shown.returncode, hashlib.sha256(shown.stdout).hexdigest()) == (0, before[int(number)][2]), line
        assert subprocess.run(["sh", "-c", command], capture_output=True).returncode == 0, line
    assert not host.rows(user), host.rows(user)
    return len(wanted), len(lines)


def queue_addresses():
    """Each of 200 addresses is the sender of a redirect and the target of an answer."""
    trials.need("awk")
    host = Host("alice")
    host.script("alice", b'require ["vacation"]; vacation :addresses "alice@example.org" "away"; redirect "far@example.com";')
    drawn = mailboxes.drawn(200, random.Random(31))
    assert sum(mailboxes.is_mailbox(text) for text in drawn) == 100
    for text in drawn:
        status, _, said = host.deliver("--no-drain", "--from", text, "--to", "alice@example.org", "alice")
        assert status == 0, (text, status, said)
    rows = host.rows("alice")
    assert len(rows) > 300, len(rows)
    went, aside = checked_runs(host, "alice", rows)
    return f"{len(drawn)} addresses, half of them near misses: {went} rows went to their target alone, {aside} were set aside, and the command that is named takes each off"


def queue_targets():
    """The same addresses as targets of redirects, which only another program could write into the store."""
    trials.need("awk")
    host = Host("alice")
    drawn = mailboxes.drawn(200, random.Random(32))
    with sqlite3.connect(host.file) as base:
        base.executemany("INSERT INTO outgoing VALUES (?, ?, 1, ?, ?, ?)",
                         [(b"alice", number, drawn[-number], text, b"Subject: %d\n\n" % number) for number, text in enumerate(drawn, 1)])
        base.execute("UPDATE account SET next_out = 1000")
    base.close()
    went, aside = checked_runs(host, "alice", host.rows("alice"))
    return f"{went} rows went to their target alone, {aside} were set aside"


def queue_rows():
    """A long local part, an answer to a sender in quotes, a bounce that goes on, and rows that sendmail doesn't take."""
    trials.need("awk")
    host = Host("alice", "bob")
    host.script("alice", b'require ["vacation"]; vacation "away"; redirect "%s@example.com";' % (b"l" * 100))
    senders = ["", '"x, victim@example.com,"@evil.example', '"> <"@evil.example', "o" * 100 + "@example.net"]
    for sender in senders:
        assert host.deliver("--no-drain", "--from", sender, "--to", "alice@example.org", "alice")[0] == 0
    rows = host.rows("alice")
    assert len(rows) == 7, rows
    status, _, _ = host.call("sieved-queue", "bob", "alice", "carol", ENDS="75")
    assert status == 75 and host.rows("alice") == rows and len(host.runs()) == 7, (status, host.runs())
    os.remove(host.env["RUNS"])
    tools = f"{host.room}/tools"
    os.mkdir(tools)
    for tool in "mktemp", "rm", "env", "python3":
        os.symlink(shutil.which(tool), f"{tools}/{tool}")
    status, _, said = host.call("sieved-queue", "alice", PATH=tools)
    assert status == 75 and host.rows("alice") == rows and not host.runs(), (status, said)
    assert checked_runs(host, "alice", rows) == (7, 0)
    return "seven rows, each to its target alone; what sendmail refuses, and all where there is no awk, stays with 75"


def queue_beside():
    """Two runs side by side, one of them by hand: with flock each row goes once. Without it they'd send rows twice."""
    trials.need("awk", "flock")
    host = Host("alice", "bob")
    host.script("alice", b'redirect "far@example.com";')
    slow = host.program("slow", f'#!/bin/sh\nsleep 0.1\nexec "{host.env["SENDMAIL"]}" "$@"\n')
    tools = f"{host.room}/tools"
    os.mkdir(tools)
    for tool in "awk", "cat", "env", "mktemp", "python3", "rm", "sh", "sleep":
        os.symlink(shutil.which(tool), f"{tools}/{tool}")
    counts = []
    for path in os.environ["PATH"], tools:
        for _ in range(6):
            assert host.deliver("--no-drain", "--to", "alice@example.org", "alice")[0] == 0
        runs = [host.start("sieved-queue", "bob", "alice", SENDMAIL=slow, PATH=path) for _ in range(2)]
        ended = [(run.communicate(timeout=120)[1], run.returncode) for run in runs]
        counts.append(len(host.runs()))
        os.remove(host.env["RUNS"])
        assert not host.rows("alice"), ended
        assert path == tools or ended == [(b"", 0)] * 2, ended
    assert counts[0] == 6 < counts[1], counts
    return f"six rows went {counts[0]} times; where there is no flock, {counts[1]} times"


def queue_by_hand():
    """A row that is set aside, sent on by the page's lines: what its addresses have is no shell's to read."""
    trials.need("awk")
    host = Host("alice")
    host.script("alice", b'redirect "far@example.com";')
    for sender in "x, victim@example.com,@evil.example", "a'$(touch x)`touch y`;\x1b[2J b@evil.example":
        assert host.deliver("--no-drain", "--from", sender, "--to", "alice@example.org", "alice", data=MAIL % b"\x1b[2J" + sender.encode())[0] == 0
    with open(f"{DOCS}/OPERATING.md") as file:
        lines = [line[4:] for line in file.read().split("**A row that can't go.**")[1].split("\n## ")[0].split("\n") if line.startswith("    ")]
    ours = re.sub(r"\bsieved (?=queue|done)", f"'{host.sieved}' ", "\n".join(lines)).replace("sendmail -i", "'%s' -i" % host.env["SENDMAIL"])
    messages = [message for _, _, message in host.rows("alice").values()]
    for number, (sender, target) in enumerate([("alice@example.org", "far@example.com"), ("<>", "\"$(touch x)`touch y`;'\"@example.com")], 1):
        done = subprocess.run(["sh", "-e", "-c", ours.replace("alice 3", f"alice {number}").replace("row-3", f"row-{number}")], env=host.env, cwd=host.room,
                              input=f"{sender}\n{target}\n".encode(), capture_output=True)
        assert (done.returncode, done.stderr) == (0, b"") and b"\x1b" not in done.stdout, done
        assert host.runs()[-1] == ([b"-i", b"-f", sender.encode(), b"--", target.encode()], messages[number - 1]), host.runs()
        assert os.stat(f"{host.room}/row-{number}.eml").st_mode & 0o777 == 0o600
    assert not host.rows("alice") and len(host.runs()) == 2 and {"x", "y"}.isdisjoint(os.listdir(host.room))
    return "two rows looked at, sent on and taken off; each address was one word"


# drain


FOLDERS = {  # as `.` and `/` have them: the rules of docs/REFERENCE.md, worked out by hand
    "INBOX": ("", ""), "Sent Items": (".Sent Items", ".Sent Items"), "work/x": (".work\\2fx", ".work.x"),
    "INBOX.Junk": (".INBOX.Junk", ".INBOX\\2eJunk"), "Größe": (".Gr&APYA3w-e", ".Gr&APYA3w-e"), " lists": (". lists", ". lists"),
    "trail ": (".trail ", ".trail "), "a 1 b 1": (".a 1 b 1", ".a 1 b 1"), "-n": (".-n", ".-n"), "a\\b": (".a\\5cb", ".a\\5cb"), "R&D": (".R&-D", ".R&-D"),
    "$(id)`id`;*": (".$(id)`id`;*",) * 2, "lists": (".lists", ".lists"),
}


def filled(*names, flags=False):
    """A host where alice has one message in each folder, and by name that message; with flags each other one is seen."""
    host = Host("alice")
    quoted = lambda name: name.replace("\\", "\\\\").replace('"', '\\"')
    seen = lambda at: ':flags "\\\\Seen" ' if flags and at % 2 else ""
    rules = "".join(f'if header :is "subject" "{at}" {{ fileinto {seen(at)}"{quoted(name)}"; }}\r\n' for at, name in enumerate(names))
    host.script("alice", ('require ["fileinto", "imap4flags"];\r\n' + rules).encode())
    messages = {name: MAIL % b"%d" % at for at, name in enumerate(names)}
    for message in messages.values():
        assert host.deliver("--no-drain", "--to", "alice@example.org", "alice", data=message)[0] == 0
    return host, messages


def drain_folders():
    trials.need("flock")
    for at, separator in enumerate("./"):
        host, messages = filled(*FOLDERS)
        status, printed, said = host.call("sieved-drain", "alice", SIEVED_SEPARATOR=separator)
        assert (status, said) == (0, b"") and not host.stored(), (status, said, host.stored())
        for name, message in messages.items():
            folder = f"{host.mail}/alice/{FOLDERS[name][at]}"
            (file,) = os.listdir(f"{folder}/new")
            with open(f"{folder}/new/{file}", "rb") as found:
                assert found.read() == message, name
            assert {"tmp", "new", "cur"} <= {*os.listdir(folder)}, name
        with open(f"{host.mail}/alice/subscriptions") as file:
            lines = file.read().split("\n")
        wanted = {directories[at][1:].replace(".", "\t") for directories in FOLDERS.values()} - {""}
        assert lines[:2] == ["V\t2", ""] and lines[-1] == "" and sorted(lines[2:-1]) == sorted(wanted), lines
    return f"{len(FOLDERS)} folders by `.` and by `/`: each message in its directory, each folder subscribed once"


# The flags that a script sets, and how the file of a Maildir is then called behind its name: its letters in their order; None: it is one of `new`.
SET = {"": None, "work $x": None, "\\\\Seen work": "S", "\\\\seen": "S", "\\\\Deleted \\\\Seen \\\\Answered \\\\Flagged \\\\Draft": "DFRST", "\\\\Recent a(b": None,
       "\\\\Flagged \\\\Draft": "DF"}


def flagged():
    """A host where alice has a message for each set of flags, each in a folder of its own, and by the folder's number that message."""
    host = Host("alice")
    rules = "".join(f'if header :is "subject" "{at}" {{ setflag "{flags}"; fileinto "f{at}"; }}\r\n' for at, flags in enumerate(SET))
    host.script("alice", ('require ["fileinto", "imap4flags"];\r\n' + rules).encode())
    messages = [MAIL % b"%d" % at for at in range(len(SET))]
    for message in messages:
        assert host.deliver("--no-drain", "--to", "alice@example.org", "alice", data=message)[0] == 0
    return host, messages


def drain_flags():
    """A message with system flags is a file of `cur`, with their letters; without, of `new`: with `cur` there and without."""
    for parts in ("tmp", "new", "cur"), ("tmp", "new"):
        host, messages = flagged()
        for at, (message, letters) in enumerate(zip(messages, SET.values())):
            maildir = f"{host.mail}/f{at}"
            for part in parts:
                os.makedirs(f"{maildir}/{part}")
            assert drained(host, f"f{at}", maildir) == (0, b"drained 1\n", b""), at
            found = [f"{part}/{name}" for part in ("tmp", "new", "cur") if os.path.isdir(f"{maildir}/{part}") for name in os.listdir(f"{maildir}/{part}")]
            name = name_of("alice", f"f{at}", at + 1, message)
            assert found == [f"cur/{name}:2,{letters}" if letters else f"new/{name}"], (at, found)
            with open(f"{maildir}/{found[0]}", "rb") as file:
                assert file.read() == message, at
        assert not host.stored()
    return f"{len(SET)} messages, into Maildirs with `cur` and without"


def drained(host, folder, maildir):
    done = subprocess.run([host.sieved, "drain", "--db", host.file, "alice", folder, maildir], capture_output=True, timeout=60)
    return done.returncode, done.stdout, done.stderr


def name_of(user, folder, number, message):
    """What a file is called by docs/REFERENCE.md: the number, and the SHA-256 of user, folder and message, the first two behind their lengths."""
    counted = b"".join(len(text).to_bytes(8, "big") + text for text in (user.encode(), folder.encode()))
    return f"{number}.{hashlib.sha256(counted + message).hexdigest()}"


NOBODY = ["setpriv", "--reuid=65534", "--regid=65534", "--clear-groups"]


def give_all(host, modes):
    """Lets everybody write what a host has, but for directories that have modes of their own."""
    for path, _, files in os.walk(host.room):
        os.chmod(path, modes.get(path, 0o777))
        for name in files:
            os.chmod(f"{path}/{name}", 0o777)


def drain_unread():
    """Into a Maildir whose parent may not be read, but searched, mail moves. Where the Maildir itself may not be read it stays."""
    trials.need_root()
    trials.need("setpriv")
    host, messages = flagged()
    maildir = f"{host.mail}/x"
    for part in "tmp", "new", "cur":
        os.makedirs(f"{maildir}/{part}")
    drain = lambda: subprocess.run([*NOBODY, host.sieved, "drain", "--db", host.file, "alice", "f2", maildir], capture_output=True, timeout=60)
    give_all(host, {maildir: 0o711})
    done, left = drain(), sorted(host.stored())
    wanted = 75, b"", b"sieved: input or output failed\nsieved: permission denied\n"
    assert (done.returncode, done.stdout, done.stderr) == wanted and left == sorted(messages), (done, len(left))
    give_all(host, {host.mail: 0o711})
    done = drain()
    assert (done.returncode, done.stdout, done.stderr) == (0, b"drained 1\n", b"") and len(os.listdir(f"{maildir}/cur")) == 1, done
    return "a message stays where the Maildir may not be read, and moves where its parent may not"


def drain_no_place():
    """Where `cur` is a file, or can't be written to or made, a message with system flags stays, nothing stays in `tmp`, and another one moves."""
    told = []
    for how in "a file", "no directory to write to", "not to be made":
        if how != "a file":
            trials.need_root()
            trials.need("setpriv")
        host, messages = flagged()
        maildir = f"{host.mail}/x"
        for part in "tmp", "new":
            os.makedirs(f"{maildir}/{part}")
            os.chmod(f"{maildir}/{part}", 0o777)
        if how == "a file":
            open(f"{maildir}/cur", "w").close()
        elif how == "no directory to write to":
            os.mkdir(f"{maildir}/cur", 0o555)
        # who may write all but that
        give_all(host, {maildir: 0o755, f"{maildir}/cur": 0o755})
        user = [] if how == "a file" else NOBODY
        drain = lambda folder: subprocess.run([*user, host.sieved, "drain", "--db", host.file, "alice", folder, maildir], capture_output=True, timeout=60)
        done = drain("f2")
        assert done.returncode == 75 and done.stdout == b"" and done.stderr.startswith(b"sieved: input or output failed\n"), (how, done)
        told.append(done.stderr.decode().split("\n")[1:-1])
        assert sorted(host.stored()) == sorted(messages) and not os.listdir(f"{maildir}/tmp") and not os.listdir(f"{maildir}/new"), how
        done = drain("f1")
        assert (done.returncode, done.stdout, done.stderr) == (0, b"drained 1\n", b""), (how, done)
        assert os.listdir(f"{maildir}/new") == [name_of("alice", "f1", 2, messages[1])], how
    return f"a message with a flag stays ({told}), one without moves"


def drain_subscriptions():
    """What the user does with subscriptions stays, and so does what another process has locked."""
    trials.need("flock")
    host, messages = filled("lists", "more", "third")
    file = f"{host.mail}/alice/subscriptions"
    again = lambda name: host.deliver("--no-drain", "--to", "alice@example.org", "alice", data=messages[name])
    os.makedirs(f"{host.mail}/alice/.lists/cur")
    with open(file, "w") as out:
        out.write("work.x\nmore\nkept")
    with open(f"{file}.lock", "w"):
        pass
    os.utime(f"{file}.lock", (1, 1))
    assert host.call("sieved-drain", "alice")[0] == 0 and not host.stored() and not os.path.exists(f"{file}.lock")
    with open(file) as found:
        assert found.read() == "work.x\nmore\nkept\nthird\n"
    shutil.rmtree(f"{host.mail}/alice/.more")
    again("more"), again("third")
    with open(f"{file}.lock", "w"):
        pass
    status, _, said = host.call("sieved-drain", "alice")
    assert status == 75 and host.stored() == [messages["more"]] and b"more" in said and os.path.exists(f"{file}.lock"), (status, said)
    os.remove(f"{file}.lock")
    with open(file, "w") as out:
        out.write("V\t2\n\nwork\tx\n")
    assert host.call("sieved-drain", "alice")[0] == 0 and not host.stored()
    again("more"), host.call("sieved-drain", "alice")
    with open(file) as found:
        assert found.read() == "V\t2\n\nwork\tx\nmore\n"
    return "only a new directory is subscribed, in either version of the file; a lock is waited for and left, one of a dead process is taken"


def drain_users():
    trials.need("flock")
    host = Host()
    for user, address in (".hidden", "hidden@example.org"), ("alice@example.org",) * 2:
        host.run("adduser", "--salt", os.urandom(16).hex(), user, address, data=b"secret\n")
    for user in ".hidden", "alice@example.org":
        host.deliver("--no-drain", "--to", "a@b", user)
    status, _, said = host.call("sieved-drain", ".hidden", "alice@example.org", "..", "a/b", "")
    assert status == 75 and said.count(b"can't be a directory") == 4 and len(host.stored()) == 1, (status, said)
    assert os.listdir(host.mail) == ["alice@example.org"], os.listdir(host.mail)
    return "a user whose name begins with a dot is passed over, and the next one is not"


def drain_listings():
    """Listings that don't fit each other, or a directory that lies elsewhere, move nothing."""
    host = Host("alice")
    host.deliver("--no-drain", "--to", "a@b", "alice")
    for line in (". 2 INBOX", ". 1 Inbox", "../x 1 INBOX", ".. 1 INBOX", ".a/../../x 1 INBOX", "x 1 INBOX", " 1 INBOX", ". 1 INBOX\n.x 1 x"):
        stand_in = host.program("stand-in", f'#!/bin/sh\ncase "$*" in *--maildir*) printf "%s\\n" "{line}" ;; *) exec "{host.sieved}" "$@" ;; esac\n')
        status, _, said = host.call("sieved-drain", "alice", SIEVED=stand_in)
        assert status == 75 and len(host.stored()) == 1 and not host.moved() and b"alice" in said, (line, status, said)
        assert {"x", "subscriptions"}.isdisjoint(os.listdir(host.room)) and os.listdir(host.mail) in ([], ["alice"]), line
    return "eight lines that can't be: 75, and the message stays in the store"


def drain_killed():
    trials.need("flock")
    names = [f"f{n}" for n in range(12)]
    host, messages = filled("INBOX", *names, flags=True)
    counts = collections.Counter()
    began = time.time()
    host.call("sieved-drain", "bob")
    whole = 4 * (time.time() - began)
    for _ in range(25):
        process = host.start("sieved-drain", "alice")
        process.stdin.close()
        time.sleep(random.uniform(0, whole))
        if process.poll() is None:
            os.killpg(process.pid, signal.SIGKILL)
        counts[process.wait()] += 1
        process.stdout.close(), process.stderr.close()
        there = {*host.stored(), *host.moved()}
        assert there == {*messages.values()}, len(there)
        file = f"{host.mail}/alice/subscriptions"
        if os.path.exists(file):
            with open(file) as found:
                text = found.read()
            assert re.fullmatch(r"V\t2\n\n(f\d+\n)+", text), text
        if os.path.exists(f"{file}.lock"):
            os.utime(f"{file}.lock", (1, 1))
        if not host.stored():
            break
    assert counts[-9] > 3, counts
    assert host.call("sieved-drain", "alice")[0] == 0 and not host.stored()
    with open(f"{host.mail}/alice/subscriptions") as found:
        assert sorted(found.read().split("\n")[2:-1]) == sorted(names)
    for at, name in enumerate(names, 1):
        (file,) = os.listdir(f"{host.mail}/alice/.{name}/{'cur' if at % 2 else 'new'}")
        assert file.endswith(":2,S") == bool(at % 2) and not os.listdir(f"{host.mail}/alice/.{name}/tmp"), file
    return f"{counts[-9]} runs killed: each message is there, the seen ones in `cur`, each folder subscribed once"


def drain_full_disk():
    trials.need("flock")
    host, messages = filled("INBOX", *(f"f{n}" for n in range(40)), flags=True)
    with small_disk(host.mail, 100):
        status, _, said = host.call("sieved-drain", "alice")
        there = sorted(host.stored() + host.moved())
        with open(f"{host.mail}/alice/subscriptions") as found:
            lines = found.read().split("\n")
        assert status == 75 and host.stored() and host.moved() and b"alice: f" in said, (status, said)
        assert there == sorted(messages.values()), len(there)
        assert lines[:2] == ["V\t2", ""] and lines[-1] == "" and all(re.fullmatch(r"f\d+", line) for line in lines[2:-1]), lines
        moved = len(host.moved())
    return f"{moved} of {len(messages)} moved, the others stay, and the script says which folder they are of"


def drain_order():
    """By the calls that strace records: a Maildir and all that it stands in are synced before its first message leaves the store."""
    trials.need("strace", "flock")
    host, messages = filled("INBOX", "lists")
    shutil.rmtree(host.mail)
    log = f"{host.room}/calls"
    done = subprocess.run(["strace", "-f", "-y", "-e", "trace=fsync,fdatasync,write,pwrite64,rename,renameat,renameat2,execve", "-s", "200", "-o", log,
                           f"{PACKAGING}/sieved-drain", "alice"], env=host.env, capture_output=True)
    if done.returncode or not os.path.exists(log):
        raise trials.LeftOut("no strace of another process") if b"PTRACE" in done.stderr else AssertionError(done)
    with open(log, errors="replace") as file:
        calls = file.read().split("\n")
    home, seen = f"{host.mail}/alice", []
    for folder in (home, f"{home}/.lists"):
        moved = next(at for at, call in enumerate(calls) if "execve" in call and '"drain"' in call and f'"{folder.replace(home, home)}' in call
                     and ('"lists"' in call) == folder.endswith(".lists"))
        writes = next(at for at, call in enumerate(calls) if at > moved and "write" in call and "mail.db-wal>" in call)
        synced = [re.search(r"fsync\(\d+<(.*)>\)", call) for call in calls[:moved]]
        synced = {os.path.normpath(match[1]) for match in synced if match}
        wanted = {folder, home, host.mail, host.room, *(f"{folder}/{part}" for part in ("tmp", "new", "cur"))}
        assert wanted <= synced, wanted - synced
        seen.append(writes)
    return f"{len(wanted)} directories synced before each folder's first message leaves the store"


# a full disk


def reserve_makes_room():
    """A full disk stops every word, and the file that OPERATING has made beside the store is the room that mends it."""
    trials.need("flock")
    with open(f"{DOCS}/OPERATING.md") as file:
        page = file.read()
    make, remove = re.search(r"sh -c '(head -c 64M .* > \S+/reserve)'", page)[1], re.search(r"\n    (rm \S+/reserve)\n", page)[1]
    host = Host()
    disk, room = f"{host.room}/disk", f"{host.room}/mail"
    os.mkdir(disk)
    ours = lambda line: line.replace("/var/lib/sieved", disk).replace("64M", "1M")
    with small_disk(disk, 2_500):
        host.file = host.env["SIEVED_DB"] = f"{disk}/mail.db"
        host.run("init")
        host.run("adduser", "--salt", os.urandom(16).hex(), "alice", "alice@example.org", data=b"secret\n")
        subprocess.run(["sh", "-e", "-c", ours(make)], check=True)
        count = 0
        while host.deliver("--no-drain", "--to", "a@b", "alice", data=MAIL % b"%d" % count + b"x" * 20_000)[0] == 0:
            count += 1
        status, _, said = host.call("sieved-drain", "alice")
        assert status == 75 and b"disk is full" in said and len(host.moved()) <= 1, (status, said)
        subprocess.run(["sh", "-e", "-c", ours(remove)], check=True)
        runs = next((run for run in range(1, 6) if host.call("sieved-drain", "alice")[0] == 0), None)
        assert runs and len(host.moved()) >= count > 10, (runs, len(host.moved()), count)
        assert host.deliver("--to", "a@b", "alice")[0] == 0
        subprocess.run(["sh", "-e", "-c", ours(make)], check=True)
    return f"after {count} deliveries the disk is full and no message leaves the store; without the reserve {runs} runs move all, and there is room again"


@contextmanager
def less_memory(limit):
    """The folder of a control group of so many octets of memory."""
    trials.need_root()
    name = f"sieved-trial-{os.getpid()}"
    for folder, file in ((f"/sys/fs/cgroup/memory/{name}", "memory.limit_in_bytes"), (f"/sys/fs/cgroup/{name}", "memory.max")):
        try:
            os.mkdir(folder)
        except OSError:
            continue
        try:
            with open(f"{folder}/{file}", "w") as limits:
                limits.write(str(limit))
            yield folder
            return
        except FileNotFoundError:
            pass
        finally:
            os.rmdir(folder)
    raise trials.LeftOut("no control group for memory")


def swap_serves():
    """A store of twice the memory that there is: a word is killed or refused, and by the page's lines its mail moves."""
    trials.need("flock", "mkswap", "swapon")
    with open(f"{DOCS}/OPERATING.md") as file:
        lines = re.search(r"\n    (dd if=/dev/zero of=/var/swap .*?)\n\n", file.read(), re.DOTALL)[1].replace("\n    ", "\n")
    host, count = Host("alice"), 90
    with sqlite3.connect(host.file) as base:
        for number in range(1, count + 1):
            base.execute("INSERT INTO message(owner, id, bytes) VALUES (?, ?, ?)", (b"alice", number, MAIL % b"%d" % number + b"x" * 500_000))
            base.execute("INSERT INTO copy(owner, folder, n, id, flags) VALUES (?, ?, ?, ?, X'')", (b"alice", b"INBOX", number, number))
        base.execute("UPDATE account SET next_copy = ? WHERE name = ?", (count + 1, b"alice"))
    base.close()
    given = {"/var/swap": f"{host.room}/swap", "/var/lib/sieved/mail.db": host.file, "runuser -u sieved -- sieved-drain alice bob": f"'{PACKAGING}/sieved-drain' alice"}
    lines = re.sub("|".join(map(re.escape, given)), lambda found: given[found[0]], lines)
    make, drain, end = re.fullmatch(r"(.*swapon \S+\n)(.*?\n)(swapoff .*)", lines, re.DOTALL).groups()
    with less_memory(os.path.getsize(host.file) // 2) as group:
        confined = lambda command: subprocess.run(["sh", "-c", f"echo $$ > {group}/cgroup.procs; {command}"], env=host.env, capture_output=True, timeout=200)
        without = confined(f"'{host.sieved}' folders --db '{host.file}' alice")
        assert without.returncode in (137, -signal.SIGKILL) or b"out of memory" in without.stderr, without
        if subprocess.run(["sh", "-e", "-c", make], capture_output=True).returncode:
            raise trials.LeftOut("no swap")
        try:
            moves = confined(drain)
        finally:
            subprocess.run(["sh", "-e", "-c", end], check=True, capture_output=True)
    assert moves.returncode == 0 and len(host.moved()) == count and not host.stored(), (moves, len(host.moved()))
    return f"in half of a store's {os.path.getsize(host.file) // 1_000_000} MB no word comes through; with swap its {count} messages move"


# backup and restore


def restore_keeps_the_old():
    """By the page's lines: a copy that is no store changes nothing, a good one takes the place of the old store, which is moved aside;
    whom Postfix' table has and the store hasn't is told."""
    trials.need_root()
    trials.need("flock", "sqlite3")
    with open(f"{DOCS}/OPERATING.md") as file:
        section = file.read().split("\n## Back up and restore\n")[1].split("\n## ")[0]
    host = Host("alice", "bob")
    ours = re.sub(r"\bsieved (?=folders|users)", f"'{host.sieved}' ", section.replace("runuser -u sieved -- ", ""))
    for given, own in (("/var/lib/sieved", host.room), ("/var/backups/sieved", f"{host.room}/backups"), (" -o sieved -g sieved", ""), ("systemctl ", ": "),
                       ("sieved-drain alice", f"'{PACKAGING}/sieved-drain' alice"), ("/etc/postfix/sieved", f"{host.room}/table")):
        ours = ours.replace(given, own)
    blocks = ["\n".join(line[4:] for line in block.split("\n")) for block in re.findall(r"(?:\n    .*)+", ours)]
    run = lambda text, shell="sh": subprocess.run([shell, "-e", "-c", text], env=host.env, capture_output=True)
    copied, looked, restored, lacking, started, drained = blocks
    copy, look, restore, drain = (lambda text=text: run(text) for text in (copied, looked, restored, drained))
    deliver = lambda subject: host.deliver("--no-drain", "--to", "a@b", "alice", data=MAIL % subject)[0] == 0
    assert os.path.basename(host.file) == "mail.db" and deliver(b"one")
    assert copy().returncode == 0 and deliver(b"two")
    os.truncate(f"{host.room}/backups/mail.db", 20_000)
    assert look().returncode and restore().returncode and len(host.stored()) == 2 and not os.path.exists(f"{host.room}/before-restore")
    done = [copy()]
    host.program("away", f"#!/bin/sh\nexec '{host.sieved}' drain --db '{host.file}' --most 1 alice INBOX '{host.mail}'\n")
    for name in "tmp", "new", "cur":
        os.mkdir(f"{host.mail}/{name}")
    assert run(f"{host.room}/away").returncode == 0 and host.moved() == [MAIL % b"one"] and deliver(b"three")
    done += [look(), restore()]
    assert [one.returncode for one in done] == [0, 0, 0] and done[1].stdout == b"ok\nINBOX 2\n" and done[2].stdout == b"INBOX 2\n", done
    assert sorted(host.stored()) == [MAIL % b"one", MAIL % b"two"] and not [name for name in os.listdir(host.room) if name.startswith("restored")]
    done = drain()
    assert done.returncode == 0 and MAIL % b"three" in host.moved() and len(host.stored()) == 2, done
    assert deliver(b"four") and look().returncode == 0 and restore().returncode and len(host.stored()) == 3
    with open(f"{host.room}/table", "w") as file:
        file.write("alice x\nbob x\ncarol x\n")
    done = run(lacking, "bash")
    assert (done.returncode, done.stdout, done.stderr) == (0, b"carol\n", b"") and run(started).returncode == 0, done
    return "a copy that is cut off changes nothing; a good one is the store, and the old one's mail is drained from where it stands"


# the program's start

# Says as whom it runs, the store of the environment, and its words.
SAYS_WHO = """#!/bin/sh
printf '%s %s %s' "$(id -u)" "$(id -g)" "${SIEVED_DB-none}"
for word do printf ' [%s]' "$word"; done
"""
# Users that each Debian has: mail and news.
OWNER, STRANGER = 8, 9


class Root:
    """Directories of root's and of others, and packaging/sieved over a stand-in that says as whom it runs, or over the program."""

    def __init__(self, program=None):
        trials.need_root()
        trials.need("setpriv")
        self.folder = tempfile.TemporaryDirectory()
        self.room = os.path.realpath(self.folder.name)
        os.chmod(self.room, 0o755)
        self.group = pwd.getpwuid(OWNER).pw_gid
        with open(f"{PACKAGING}/sieved") as file:
            text = file.read()
        self.file("who", 0, 0o755, SAYS_WHO)
        place = "/usr/local/lib/sieved/sieved"
        assert text.count(place) == 1
        self.sieved = self.file("sieved", 0, 0o755, text.replace(place, program or f"{self.room}/who"))

    def directory(self, name, owner, mode=0o755):
        os.mkdir(f"{self.room}/{name}")
        os.chmod(f"{self.room}/{name}", mode)
        os.chown(f"{self.room}/{name}", owner, owner)
        return f"{self.room}/{name}"

    def file(self, name, owner, mode=0o600, text=""):
        with open(f"{self.room}/{name}", "w") as file:
            file.write(text)
        os.chmod(file.name, mode)
        os.chown(file.name, owner, owner)
        return file.name

    def link(self, name, target, owner=0):
        os.symlink(target, f"{self.room}/{name}")
        os.chown(f"{self.room}/{name}", owner, owner, follow_symlinks=False)
        return f"{self.room}/{name}"

    def call(self, *words, user=0, cwd=None, data=b"", **env):
        variables = {name: value for name, value in os.environ.items() if name != "SIEVED_DB"}
        how = {"user": user, "group": user, "extra_groups": []} if user else {}
        done = subprocess.run([self.sieved, *words], env={**variables, **env}, input=data, capture_output=True, cwd=cwd or "/", **how)
        return done.returncode, done.stdout.decode(), done.stderr.decode()

    def of(self, *words, **how):
        """As whom the program ran; None where it didn't."""
        status, printed, said = self.call(*words, **how)
        if status:
            assert (status, printed) == (64, "") and said.startswith("sieved: not as root: "), (status, printed, said)
            return None
        return int(printed.split()[0])


def root_as_owner():
    root = Root()
    root.directory("theirs", OWNER, 0o700)
    store = root.file("theirs/mail.db", OWNER)
    root.directory("own", 0, 0o700)
    mine = root.file("own/mail.db", 0)
    assert root.call("users", "--db", store) == (0, f"{OWNER} {root.group} none [users] [--db] [{store}]", "")
    assert root.call("put", f"--db={store}", "a b", "") == (0, f"{OWNER} {root.group} none [put] [--db={store}] [a b] []", "")
    assert root.call("users", SIEVED_DB=store) == (0, f"{OWNER} {root.group} {store} [users]", "")
    assert root.call("users", "--db", store, SIEVED_DB=mine) == (0, f"{OWNER} {root.group} none [users] [--db] [{store}]", "")
    assert root.call("users", "--db", mine, SIEVED_DB=store) == (0, f"0 0 none [users] [--db] [{mine}]", ""), "root's own store"
    assert root.of("users", "--db", "mail.db", cwd=f"{root.room}/theirs") == OWNER and root.of("users", "--db", "mail.db", cwd=f"{root.room}/own") == 0
    assert root.of("users", "--db", "../theirs/./mail.db", cwd=f"{root.room}/own") == OWNER
    assert root.of("init", "--db", f"{root.room}/theirs/new.db") == OWNER and root.of("init", "--db", f"{root.room}/own/new.db") == 0
    # What needs no store is root's, whatever the environment says.
    for words in (), ("--version",), ("check", "a.sieve"), ("try", "--from", "--db"):
        assert root.of(*words, SIEVED_DB=store) == 0, words
    # Who isn't root stays who it is.
    assert root.of("users", "--db", mine, user=STRANGER) == root.of("users", "--db", store, user=STRANGER) == STRANGER
    # A store that is another's in a directory of root's.
    assert root.of("users", "--db", root.file("own/another.db", OWNER)) == OWNER
    return "by an option, by the environment, by a path from anywhere; root's own store, and what needs none, stay root's"


def root_goes_no_further():
    root = Root()
    root.directory("theirs", OWNER)
    root.directory("own", 0)
    mine = root.file("own/mail.db", 0)
    # Whatever the owner plants is found with the owner's rights.
    root.link("theirs/mail.db", "/etc/shadow", OWNER)
    root.link("theirs/sub", f"{root.room}/own", OWNER)
    root.link("theirs/by-root", f"{root.room}/own")
    os.link(mine, f"{root.room}/theirs/hard.db")
    for name in "mail.db", "sub/mail.db", "by-root/mail.db", "hard.db", "absent/mail.db", "sub/../own/mail.db":
        assert root.of("users", "--db", f"{root.room}/theirs/{name}") == OWNER, name
    # Links of root's are followed, as far as their way is safe; one of another's is its owner's.
    root.link("absolute", f"{root.room}/theirs")
    root.link("relative", "theirs")
    root.link("own/to-theirs", "../relative/x.db")
    root.link("to-own", "absolute/../own")
    root.link("anothers", f"{root.room}/own", STRANGER)
    assert root.of("users", "--db", f"{root.room}/absolute/x.db") == root.of("users", "--db", f"{root.room}/relative/x.db") == OWNER
    assert root.of("users", "--db", f"{root.room}/own/to-theirs") == OWNER and root.of("users", "--db", f"{root.room}/anothers/mail.db") == STRANGER
    # `..` behind a link is the parent of what it leads to, and so is theirs where the link is in theirs.
    assert root.of("users", "--db", f"{root.room}/to-own/mail.db") == OWNER
    root.link("loop", "loop")
    assert root.of("users", "--db", f"{root.room}/loop/mail.db") is None
    # Where others may write root doesn't go on; in a directory with the sticky bit each thing has its owner.
    root.directory("open", 0, 0o777)
    root.directory("grouped", 0, 0o775)
    root.directory("sticky", 0, 0o1777)
    root.directory("sticky/theirs", OWNER, 0o700)
    root.directory("sticky/own", 0, 0o700)
    root.link("sticky/to-own", f"{root.room}/own", STRANGER)
    for name in "open/mail.db", "grouped/mail.db", "open/own/mail.db", "sticky/mail.db":
        assert root.of("init", "--db", f"{root.room}/{name}") is None, name
    root.file("sticky/mail.db", 0)
    root.link("sticky/roots", mine)
    assert root.of("users", "--db", f"{root.room}/sticky/mail.db") is None and root.of("users", "--db", f"{root.room}/sticky/roots") is None
    assert root.of("users", "--db", f"{root.room}/sticky/theirs/mail.db") == OWNER and root.of("init", "--db", f"{root.room}/sticky/own/mail.db") == 0
    assert root.of("users", "--db", f"{root.room}/sticky/to-own/mail.db") == STRANGER
    # What names no file, stores of two owners, and words that may or may not name a store.
    for name in "", ".", "..", f"{root.room}/own/", f"{root.room}/own/.", f"{root.room}/own/..":
        assert root.of("users", "--db", name) is None, name
    theirs = f"{root.room}/theirs/x.db"
    assert root.of("users", "--db", theirs, f"--db={mine}") is None and root.of("users", "--db", theirs, "--db", theirs) == OWNER
    assert root.of("deliver", "--from", "--db", theirs) == OWNER and root.of("put", "--db", mine, "--", "--db", theirs) is None
    root.directory("nobodys", 54_321)
    assert root.of("users", "--db", f"{root.room}/nobodys/mail.db") is None, "an owner without a name"
    return "links of the owner's and of others, directories that others may write to, names of no file, two owners"


def root_runs_words():
    root = Root(PROGRAM[0])
    os.chmod(root.directory("theirs", OWNER, 0o700), 0o700)
    file = f"{root.room}/theirs/mail.db"
    if subprocess.run(["setpriv", f"--reuid={OWNER}", "--clear-groups", "test", "-x", PROGRAM[0]]).returncode:
        raise trials.LeftOut("no program that others may run")
    assert root.call("init", "--db", file) == (0, "ready\n", "")
    assert root.call("adduser", "alice", "alice@example.org", data=b"secret\n", SIEVED_DB=file) == (0, "added alice\n", "")
    assert root.call("users", "--db", file)[1] == "alice - alice@example.org\n"
    made = [os.lstat(f"{root.room}/theirs/{name}") for name in os.listdir(f"{root.room}/theirs")]
    assert len(made) > 1 and {one.st_uid for one in made} == {OWNER}, "each file is the owner's"
    os.rename(f"{file}.lock", f"{root.room}/theirs/old")
    root.file("roots", 0, 0o600, "as it was")
    root.link("theirs/mail.db.lock", f"{root.room}/roots", OWNER)
    status, printed, said = root.call("users", "--db", file)
    assert status == 75 and not printed and said.startswith("sieved: store failed\n"), (status, printed, said)
    with open(f"{root.room}/roots") as kept:
        assert kept.read() == "as it was"
    return "a store that root makes is its owner's; a planted lock leads nowhere"


# the scripts' text


def shell_scripts():
    """Each file of the repository that sh or bash is to run."""
    found = []
    for folder, folders, files in os.walk(TOP):
        folders[:] = [name for name in folders if name not in ("out", ".git")]
        for name in files:
            with open(f"{folder}/{name}", "rb") as file:
                if re.match(rb"#!\S*/(env )?(ba)?sh\b", file.readline()):
                    found.append(file.name)
    return sorted(found)


def text_by_sh():
    for file in shell_scripts():
        for shell in [*filter(shutil.which, ("sh", "dash", "bash"))]:
            done = subprocess.run([shell, "-n", file], capture_output=True)
            assert done.returncode == 0 and not done.stderr, (shell, file, done.stderr)
    return f"sh -n says nothing of {len(shell_scripts())} scripts"


def text_by_shellcheck():
    trials.need("shellcheck")
    done = subprocess.run(["shellcheck", *shell_scripts()], capture_output=True)
    assert not done.returncode, done.stdout.decode()
    return f"shellcheck says nothing of {len(shell_scripts())} scripts"


TRIALS = {trial.__name__: trial for trial in (
    text_by_sh, text_by_shellcheck, deliver_statuses, deliver_faults, deliver_cut, deliver_killed, deliver_full_disk,
    queue_addresses, queue_targets, queue_rows, queue_beside, queue_by_hand, drain_folders, drain_flags, drain_unread, drain_no_place, drain_subscriptions, drain_users, drain_listings, drain_killed,
    drain_full_disk, drain_order, reserve_makes_room, swap_serves, restore_keeps_the_old, root_as_owner, root_goes_no_further, root_runs_words)}

if __name__ == "__main__":
    trials.main(TRIALS, lambda program: PROGRAM.__setitem__(0, program))
