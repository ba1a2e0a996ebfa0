#!/usr/bin/env python3
"""Lets the power go at each moment of a word, and sees whether the accounts are then as before it or as after it.

  tests/stops.py [--quick] [--sieved SIEVED] [TRIAL ..]     SIEVED: the program, crates/sieved/out/sieved where none is named

One run of each word that changes something is recorded by strace: its writes, truncations, new names and syncs. From that log
come the states that a power cut may leave: after each call, what was synced, and of the rest each choice of at most three calls
that are lost, all of them, or all but one; a write that is torn at a sector; one whose length stands and whose octets don't.
The program opens each. It has to show the accounts as before or as after, and once the word has answered as after. The same
state of two moments is opened once. Nothing is thought durable that wasn't synced: a name needs a sync of its folder.

The trials: init, adduser, deliver, done, imported, exported, drain, session; `drain_seen`, where two of three messages have a system flag, and
`drain_made`, where the Maildir lacks `cur` besides; `drain_killed` and `drain_refused`, where a run before was broken off as it had made
`cur`; `daemon`, which moves a message, where one before was killed as it had made the Maildir; `daemon_together`, which moves 64 at once;
`gathered`, deliveries over many connections that share a commit; `upgrade_last`, `upgrade_fourth` and
`upgrade_second`, the first word over a store that a program of version 1 or 2 wrote (crates/test_runs/data); `again`, where the power goes once more as what it left is opened;
`unsynced`, a disk that loses a commit between its write and its sync, over which the next word reads the disk; and `planted`, in
which a sync is left out of the log, an answer stands before one, or a commit before the last write, and a state has to be found
that isn't as it should be.
Without a word, all. Prints a line for each, a last one
that counts them, and ends with 1 where one failed. `tests/run` runs it, with --quick: at most one call is lost, and no length
stands. It needs python3 and strace; `unsynced` is run as root, and needs losetup, debugfs and mkfs.ext2.
"""
import base64, contextlib, hashlib, itertools, os, re, shutil, signal, sqlite3, subprocess, tempfile, time
import managesieve, trials
from lmtp import Peer
from collections import Counter, namedtuple
from concurrent.futures import ThreadPoolExecutor

PROGRAM = [managesieve.SIEVED]
DATA = os.path.abspath(f"{managesieve.HERE}/../crates/test_runs/data")
SECTOR = 512
SALT = "000102030405060708090a0b0c0d0e0f"
LOG_HEAD = 41
TABLES = "meta", "account", "script", "outgoing", "reply", "notice", "copy", "message"
SCRIPT = b"""require ["fileinto", "vacation"];\r
fileinto "a";\r
fileinto "b";\r
redirect "carol@example.com";\r
vacation "Away.";\r
"""
# A message with a name of its own, by which it is another one to send on.
MAIL = b"From: bob@example.net\r\nTo: alice@example.org\r\nMessage-ID: <%d@example.net>\r\n\r\n" + b"A line of a message.\r\n" * 400
LONG = b"# a script that takes some pages\r\n" * 300


# The log of a run.


# One call. `write`: octets of a file from a place on. `cut`: its length. `name`: a name that comes or goes, (path, file or None); a
# rename is two of them, and a folder that is made is FOLDER. `sync`: of a file, or of a folder by its path. `said`: octets for whoever called.
Call = namedtuple("Call", "kind target at octets", defaults=(0, b""))


FOLDER = "folder"


class Log:
    """What a run of the program did to the files of a folder, and what was there before."""

    def __init__(self, folder, trace, before):
        self.folder = os.path.realpath(folder)
        self.names, self.base = dict(before[0]), dict(before[1])
        self.calls, self.files, self.fresh = [], {}, itertools.count(len(before[1]))
        self.dropped = set()
        self.now = dict(before[0])
        self.read(trace)

    def read(self, trace):
        for line in trace.splitlines():
            self.take(line)

    def begin(self, *_):
        """A program that begins has no file open."""
        self.files, self.dropped = {}, set()

    def take(self, line):
        assert "unfinished" not in line and "resumed" not in line, f"two calls at once: {line[:200]}"
        found = re.match(r"\d+ +(\w+)\((.*)\) += (-?\w+|\?)", line)
        if not found:
            assert re.match(r"\d+ +(\+\+\+|---)", line), f"what is that? {line[:200]}"
            return
        name, words, result = found[1], found[2].split(", "), found[3]
        if result.startswith("-") or result == "?":
            return
        assert name in KNOWN, f"a call that isn't known: {line[:200]}"
        if KNOWN[name]:
            KNOWN[name](self, words, int(result, 0))

    def path(self, word):
        path = os.path.normpath(os.path.join(self.folder, os.fsdecode(octets_of(word))))
        return os.path.relpath(path, self.folder) if path == self.folder or path.startswith(self.folder + "/") else None

    def open(self, words, number):
        path = self.path(words[1])
        self.files[number] = None
        self.dropped.discard(number)
        if path is None:
            return
        if os.path.isdir(f"{self.folder}/{path}"):
            self.files[number] = [path, 0]
            return
        if "O_CREAT" in words[2] and self.now.get(path) is None:
            self.name(path, next(self.fresh))
        assert "O_TRUNC" not in words[2] and "O_APPEND" not in words[2], words
        self.files[number] = [self.now[path], 0]
        # The file of a lock is no store's: it says which file was opened last.
        if path.endswith(".lock"):
            self.dropped.add(number)

    def close(self, words, _):
        self.files.pop(int(words[0]), None)

    def moved(self, words, count):
        if self.files.get(int(words[0])):
            self.files[int(words[0])][1] += count

    def write(self, words, count):
        number, octets = int(words[0]), octets_of(words[1])[:count]
        if number == 1:
            self.calls.append(Call("said", None, 0, octets))
        elif self.files.get(number):
            self.calls.append(Call("write", self.files[number][0], self.files[number][1], octets))
            self.files[number][1] += count

    def sent(self, words, count):
        """What a client of LMTP is answered behind a message."""
        octets = octets_of(words[1])[:count]
        if octets.startswith(b"250 2.1.5 ") and octets != b"250 2.1.5 Ok\r\n":
            self.calls.append(Call("said", None, 0, octets))

    def write_at(self, words, count):
        if self.files.get(int(words[0])):
            self.calls.append(Call("write", self.files[int(words[0])][0], int(words[3]), octets_of(words[1])[:count]))

    def drop(self, words, _):
        assert words[3] == "POSIX_FADV_DONTNEED" and self.calls[-1] == Call("sync", self.files[int(words[0])][0]), words
        self.dropped.add(int(words[0]))

    def read_at(self, words, _):
        """What an earlier process failed to sync may stand in the kernel's copy alone: it is dropped before a store's file is read."""
        assert not self.files.get(int(words[0])) or int(words[0]) in self.dropped, f"read before the kernel's copy was dropped: {words[0]}"

    def cut(self, words, _):
        self.calls.append(Call("cut", self.files[int(words[0])][0], int(words[1])))

    def sync(self, words, _):
        self.calls.append(Call("sync", self.files[int(words[0])][0]))

    def name(self, path, file):
        self.calls.append(Call("name", (path, file)))
        self.now[path] = file

    def made(self, words, _):
        (path,) = (self.path(word) for word in words if word.startswith('"'))
        self.name(path, FOLDER)

    def rename(self, words, _):
        old, new = (self.path(word) for word in words if word.startswith('"'))
        self.name(new, self.now[old])
        self.name(old, None)

    def link(self, words, _):
        old, new = (self.path(word) for word in words if word.startswith('"'))
        self.name(new, self.now[old])

    def unlink(self, words, _):
        (path,) = (self.path(word) for word in words if word.startswith('"'))
        self.name(path, None)


def octets_of(word):
    assert word.startswith('"') and word.endswith('"'), f"a text that is cut: {word[:80]}"
    return bytes.fromhex(word[1:-1].replace("\\x", ""))


# Each call that may come: what it does to the log. None: nothing that a power cut could show.
KNOWN = dict.fromkeys("""access faccessat2 newfstatat fstat stat lstat statx getcwd readlink readlinkat getdents64 flock fcntl
    mmap fchmod chmod fchown poll ioctl epoll_create1 epoll_wait epoll_ctl socket bind listen accept4 getsockname setsockopt getsockopt
    recvfrom shutdown""".split())
KNOWN |= {"execve": Log.begin, "open": lambda log, words, result: log.open([None, *words], result), "openat": Log.open, "close": Log.close,
          "fadvise64": Log.drop, "pread64": Log.read_at, "read": Log.moved, "write": Log.write, "pwrite64": Log.write_at, "ftruncate": Log.cut, "fsync": Log.sync, "fdatasync": Log.sync,
          "mkdir": Log.made, "mkdirat": Log.made, "rename": Log.rename, "renameat": Log.rename, "renameat2": Log.rename, "link": Log.link, "linkat": Log.link,
          "unlink": Log.unlink, "unlinkat": Log.unlink, "sendto": Log.sent}


def files_of(folder):
    """The names below a folder, each with its file's number, and the octets of each file."""
    names, octets = {}, {}
    for place, _, files in os.walk(folder):
        for name in sorted(files):
            path = os.path.relpath(f"{place}/{name}", folder)
            with open(f"{folder}/{path}", "rb") as file:
                names[path], octets[len(octets)] = len(octets), file.read()
    return names, octets


# The states that a power cut may leave.


# Of a moment, which is how many calls were made: which of them are lost, and what of one is torn or grown (the call, how).
State = namedtuple("State", "moment lost torn how", defaults=(frozenset(), None, None))


def pending(calls, moment):
    """Which of the calls up to a moment no sync covers."""
    left = []
    for at, call in enumerate(calls[:moment]):
        if call.kind == "sync":
            left = [other for other in left if not covers(call.target, calls[other])]
        elif call.kind != "said":
            left.append(at)
    return left


def covers(target, call):
    if call.kind == "name":
        return (os.path.dirname(call.target[0]) or ".") == target
    return call.target == target


def states(log, most):
    """Each state, with how many answers were given before it."""
    answers = 0
    for moment in range(len(log.calls) + 1):
        if moment and log.calls[moment - 1].kind == "said":
            answers += 1
        open_calls = pending(log.calls, moment)
        lost = {frozenset(some) for count in range(most + 1) for some in itertools.combinations(open_calls, count)}
        lost |= {frozenset(open_calls)} | {frozenset(open_calls) - {one} for one in open_calls}
        for some in lost:
            yield State(moment, some), answers
        for at in open_calls if most > 1 else open_calls[-1:]:
            for how in shapes(log.calls[at], most):
                yield State(moment, frozenset(), at, how), answers
                yield State(moment, frozenset(open_calls) - {at}, at, how), answers


def shapes(call, most):
    """How a call can be done in part: the first sectors of a write, the last ones, every other one; its length alone."""
    if call.kind != "write":
        return []
    torn = ["first", "last", "other"] if call.at // SECTOR != (call.at + len(call.octets) - 1) // SECTOR else []
    return torn + (["zeros", "ones"] if most > 1 else [])


def left_by(log, state):
    """What a state has: the octets of each path."""
    names, files = dict(log.names), {number: bytearray(octets) for number, octets in log.base.items()}
    for at, call in enumerate(log.calls[:state.moment]):
        if at in state.lost:
            continue
        how = state.how if at == state.torn else None
        if call.kind == "write":
            put(files.setdefault(call.target, bytearray()), call, how)
        elif call.kind == "cut":
            file = files.setdefault(call.target, bytearray())
            del file[call.at:]
            file.extend(bytes(call.at - len(file)))
        elif call.kind == "name":
            names[call.target[0]] = call.target[1]
    made = {call.target[0] for call in log.calls if call.kind == "name" and call.target[1] == FOLDER}
    is_there = lambda path: all(names.get(folder) == FOLDER for folder in made if path.startswith(f"{folder}/"))
    return {path: bytes(files.get(number, b"")) for path, number in names.items() if number not in (None, FOLDER) and is_there(path)}


def put(file, call, how):
    if how in ("zeros", "ones"):
        more = call.at + len(call.octets) - len(file)
        file.extend((b"\0" if how == "zeros" else b"\xff") * max(more, 0))
        return
    end = call.at + len(call.octets)
    file.extend(bytes(max(end - len(file), 0)) if how is None else bytes(max(call.at - len(file), 0)))
    sectors = list(range(call.at // SECTOR, (end - 1) // SECTOR + 1))
    middle = len(sectors) // 2
    kept = {None: sectors, "first": sectors[:max(middle, 1)], "last": sectors[max(middle, 1):], "other": sectors[::2]}[how]
    if how is None:
        file[call.at:end] = call.octets
        return
    for sector in kept:
        first, last = max(sector * SECTOR, call.at), min((sector + 1) * SECTOR, end)
        file.extend(bytes(max(last - len(file), 0)))
        file[first:last] = call.octets[first - call.at:last - call.at]


# What a state shows.


class Look:
    """Opens a state with the program, and says what it shows: the same file is asked by all words once."""

    def __init__(self, scripts):
        self.scripts, self.known = scripts, {}
        self.top = tempfile.TemporaryDirectory(prefix="sieved-stops-", dir="/dev/shm" if os.path.isdir("/dev/shm") else None)

    def at(self, files):
        """What the files show: of a Maildir the messages, and of the store each word's answer and the rows of all tables."""
        with tempfile.TemporaryDirectory(dir=self.top.name) as folder:
            lay(folder, files)
            moved = tuple(sorted(octets for path, octets in files.items() if "/new/" in path or "/cur/" in path))
            return self.store(folder), moved

    def store(self, folder):
        first = ask(folder, "folders", "alice")
        if first[0] not in (0, 67):
            return ("no store",)
        found = files_of(folder)
        octets = {path: found[1][number] for path, number in found[0].items()}
        key = hashlib.sha256(octets["mail.db"]).digest()
        assert len(octets.get("mail.db-wal", b"")) <= LOG_HEAD, "a log that wasn't taken in"
        if key not in self.known:
            self.known[key] = (*first, *self.more(folder, first[1]), rows(folder))
        assert self.known[key][:2] == first, (self.known[key][:2], first)
        return self.known[key]

    def more(self, folder, folders):
        """What the other words say: each message, the queue and its messages, the notices, the scripts."""
        said = [ask(folder, "queue", "alice"), ask(folder, "notices", "alice"), ask(folder, "session", data=asking(self.scripts))]
        for line in folders.splitlines():
            name, count = line.rsplit(b" ", 1)
            said += [ask(folder, "show", "alice", name, str(number + 1)) for number in range(int(count))]
        said += [ask(folder, "queue", "alice", line.split(b" ")[0]) for line in said[0][1].splitlines()]
        return tuple(said)


def lay(folder, files):
    """Writes files into a folder."""
    for path, octets in files.items():
        os.makedirs(os.path.dirname(f"{folder}/{path}"), exist_ok=True)
        with open(f"{folder}/{path}", "wb") as file:
            file.write(octets)


def ask(folder, word, *words, data=b""):
    done = subprocess.run([PROGRAM[0], word, "--db", f"{folder}/mail.db", *words], input=data, capture_output=True, timeout=300)
    return done.returncode, done.stdout


def asking(scripts):
    return login() + b"LISTSCRIPTS\r\n" + b"".join(b'GETSCRIPT "%s"\r\n' % name for name in scripts) + b"LOGOUT\r\n"


def login():
    return b'AUTHENTICATE "PLAIN" "%s"\r\n' % base64.b64encode(b"\0alice\0" + managesieve.PASSWORD)


def rows(folder):
    """The rows of all tables, as another program reads them."""
    base = sqlite3.connect(f"file:{folder}/mail.db?mode=ro&immutable=1", uri=True)
    try:
        return tuple((table, tuple(sorted(base.execute(f"SELECT * FROM {table}").fetchall(), key=repr))) for table in TABLES)
    finally:
        base.close()


# The words.


class Room:
    """A folder with a store, and the program in it."""

    def __init__(self, users=True):
        self.place = tempfile.TemporaryDirectory(prefix="sieved-stops-")
        self.folder = self.place.name
        if users:
            self.run("init")
            self.run("adduser", "--salt", SALT, "alice", "alice@example.org", data=managesieve.PASSWORD + b"\n")

    def run(self, word, *words, data=b""):
        status, said = ask(self.folder, word, *words, data=data)
        assert status == 0, (word, status, said)
        return said

    def talk(self, *lines):
        said = self.run("session", data=login() + b"".join(lines) + b"LOGOUT\r\n")
        assert b"\r\nNO" not in said and said.endswith(b'OK "Bye."\r\n'), said
        return self

    def traced(self, word, *words, data=b"", talk=None, inject=None):
        """One run: its status, what it said, and its calls. inject: what strace does to some of them."""
        trials.need("strace")
        with tempfile.NamedTemporaryFile(prefix="sieved-trace-") as trace:
            tracing = ["strace", "-f", "-e", "trace=%file,%desc,%network", *(["-e", f"inject={inject}"] if inject else []), "-xx", "-s", "100000000", "-o", trace.name]
            command = [*tracing, PROGRAM[0], word, "--db", f"{self.folder}/mail.db", *words]
            with subprocess.Popen(command, stdin=subprocess.PIPE, stdout=subprocess.PIPE, stderr=subprocess.PIPE) as process:
                said = talk(process) if talk else process.communicate(data)[0]
                status = process.wait()
            return status, said, trace.read().decode("ascii")

    def recorded(self, word, *words, data=b"", talk=None, behind=None, ends=0):
        """The log of one run. behind: what was there before a first run, and its calls; what that one said isn't in the log."""
        before, first = behind or (files_of(self.folder), "")
        status, said, trace = self.traced(word, *words, data=data, talk=talk)
        assert status == ends, (word, status, said)
        log = Log(self.folder, first, before)
        log.calls = [call for call in log.calls if call.kind != "said"]
        log.read(trace)
        assert any(call.kind == "said" for call in log.calls) == bool(said) and any(call.kind == "sync" for call in log.calls), "nothing was recorded"
        assert left_by(log, State(len(log.calls))) == by_path(files_of(self.folder)), "the log doesn't give what the run left"
        return log, said


def by_path(found):
    names, octets = found
    return {path: octets[number] for path, number in names.items()}


def put_script(name, text):
    return b'PUTSCRIPT "%s" {%d+}\r\n%s\r\n' % (name, len(text), text)


def sweep(log, look, judge, most=None):
    """Opens each state, and has it judged by how many answers were given before it. Says how many there are."""
    found, count = {}, 0
    for state, answers in states(log, most or (1 if trials.QUICK else 3)):
        count += 1
        found.setdefault(digest(left_by(log, state)), (state, set()))[1].add(answers)

    def try_state(row):
        state, answers = row
        shown = look.at(left_by(log, state))
        told = judge(shown, answers)
        assert told is not None, f"{state}: neither as before nor as after, {answers} answers given: {shown!r:.600}"
        return told

    with ThreadPoolExecutor(os.cpu_count()) as pool:
        try:
            tally = Counter(pool.map(try_state, found.values()))
        except AssertionError:
            pool.shutdown(cancel_futures=True)
            raise
    return f"{count} states, {len(found)} opened: " + ", ".join(f"{number} {told}" for told, number in sorted(tally.items()))


def digest(files):
    parts = sorted((path, hashlib.sha256(octets).hexdigest()) for path, octets in files.items())
    return hashlib.sha256(repr(parts).encode()).digest()


def between(look, log):
    """Judges by the accounts after so many answers: those of a state are those after the answers given, or after one more."""
    ends = [at + 1 for at, call in enumerate(log.calls) if call.kind == "said"]
    shown = [look.at(left_by(log, State(moment)))[0] for moment in [0, *ends]]

    def judge(state, answers):
        return f"as after {shown.index(state[0])}" if all(state[0] in shown[given:given + 2] for given in answers) else None

    return judge, shown


def one_change(log, look):
    """Judges a word that makes one change: as before or as after it, and as after it once it has said something."""
    before, after = (look.at(left_by(log, State(moment)))[0] for moment in (0, len(log.calls)))
    assert before != after, "the word changed nothing"

    def judge(state, answers):
        if state[0] == after:
            return "as after"
        return "as before" if state[0] == before and answers == {0} else None

    return judge, before, after


def init():
    log, said = Room(users=False).recorded("init")
    look = Look([])
    judge, before, after = one_change(log, look)
    assert said == b"ready\n" and before == ("no store",) and after[:2] == (67, b""), (said, before, after)
    return sweep(log, look, judge)


def adduser():
    room = Room()
    log, said = room.recorded("adduser", "--salt", SALT[::-1], "bob", "bob@example.org", data=b"another\n")
    look = Look([])
    judge, before, after = one_change(log, look)
    names = [[row[0] for row in dict(shown[-1])["account"]] for shown in (before, after)]
    assert said == b"added bob\n" and names == [[b"alice"], [b"alice", b"bob"]], (said, names)
    return sweep(log, look, judge)


def delivery():
    """The log of a delivery with two folders, a redirect and a vacation reply."""
    room = Room()
    room.run("deliver", "--from", "bob@example.net", "--to", "alice@example.org", "alice", data=MAIL % 0)
    room.talk(put_script(b"main", SCRIPT), b'SETACTIVE "main"\r\n')
    words = "--from", "bob@example.net", "--to", "alice@example.org", "--at", "1700000000", "alice"
    log, said = room.recorded("deliver", *words, data=MAIL % 1)
    assert said == b"file a\nfile b\nsend carol@example.com\nvacation sent\n", said
    return log


def deliver():
    log, look = delivery(), Look([b"main"])
    judge, before, after = one_change(log, look)
    assert before[:2] == (0, b"INBOX 1\n") and after[:2] == (0, b"INBOX 1\na 1\nb 1\n"), (before[:2], after[:2])
    assert [shown[2] for shown in (before, after)][0] == (0, b"") and after[2][1].count(b"\n") == 2, (before[2], after[2])
    assert after[5:9] == ((0, MAIL % 0), (0, MAIL % 1), (0, MAIL % 1), (0, MAIL % 1)), after[5:9]
    moments = [[row[3] for row in dict(shown[-1])["reply"]] for shown in (before, after)]
    assert moments == [[], [1700000000] * 2], ("of the reply, and of what was sent on", moments)
    return sweep(log, look, judge)


def done():
    room = Room()
    room.talk(put_script(b"main", b'redirect "carol@example.com";\r\n'), b'SETACTIVE "main"\r\n')
    for number in range(2):
        room.run("deliver", "--from", "bob@example.net", "--to", "alice@example.org", "alice", data=MAIL % number)
    log, said = room.recorded("done", "alice", "1")
    look = Look([b"main"])
    judge, before, after = one_change(log, look)
    ids = [[line.split(b" ")[0] for line in shown[2][1].splitlines()] for shown in (before, after)]
    assert said == b"taken 1\n" and ids == [[b"1", b"2"], [b"2"]], (said, ids)
    return sweep(log, look, judge)


def full_room():
    """A store with mail in folders, a queue, a reply that is remembered and a notice, of which `export` prints all."""
    room = Room()
    room.talk(put_script(b"main", SCRIPT), b'SETACTIVE "main"\r\n', put_script(b"other", LONG + b"keep;\r\n"))
    for number in range(3):
        room.run("deliver", "--from", "bob@example.net", "--to", "alice@example.org", "--at", "1700000000", "alice", data=MAIL % number)
    room.run("deliver", "--to", "alice@example.org", "--at", "1700000000", "alice", data=b"Received: x\r\n" * 101 + MAIL % 3)
    return room


def imported():
    """An account that comes whole is there, with all that its text says, or isn't."""
    text = full_room().run("export", "alice")
    room = Room(users=False)
    room.run("init")
    log, said = room.recorded("import", data=text)
    look = Look([b"main", b"other"])
    judge, before, after = one_change(log, look)
    assert said == b"imported alice\n" and before[:2] == (67, b"") and after[:2] == (0, b"INBOX 1\na 3\nb 3\n"), (said, before[:2], after[:2])
    return sweep(log, look, judge)


def exported():
    """An account whose text is printed is open, or closed behind that: it is as before still once all of the text is written."""
    room = full_room()
    text = room.run("export", "alice")
    log, said = room.recorded("export", "--and-close", "alice")
    look = Look([b"main", b"other"])
    before, after = (look.at(left_by(log, State(moment)))[0] for moment in (0, len(log.calls)))
    written = max(at for at, call in enumerate(log.calls) if call.kind == "said")
    assert said == text and before[:2] == (0, b"INBOX 1\na 3\nb 3\n") and after[:2] == (67, b""), (len(said), before[:2], after[:2])
    assert look.at(left_by(log, State(written + 1)))[0] == before, "it is closed before its text is written"
    return sweep(log, look, lambda state, answers: "as after" if state[0] == after else "as before" if state[0] == before else None)


SEEN = b'require "imap4flags"; if not header :is "message-id" "<1@example.net>" { setflag "\\\\Seen"; }\r\n'


def with_mail(script=None, parts=("tmp", "new", "cur")):
    """A room with three messages and a Maildir of these parts."""
    room = Room()
    for part in parts:
        os.makedirs(f"{room.folder}/Maildir/{part}")
    if script:
        room.talk(put_script(b"main", script), b'SETACTIVE "main"\r\n')
    for number in range(3):
        room.run("deliver", "--from", "bob@example.net", "--to", "alice@example.org", "alice", data=MAIL % number)
    return room


def drain_of(room):
    return "drain", "alice", "INBOX", f"{room.folder}/Maildir"


def moving(script=None, parts=("tmp", "new", "cur"), how=None):
    """The log of a drain of three messages into a Maildir with these parts, what its states are judged by, and what opens them. how: a run
    is broken off before it so."""
    room = with_mail(script, parts)
    behind = broken_off(room, how, drain_of, first_sync(with_mail(script, parts), drain_of)) if how else None
    log, said = room.recorded(*drain_of(room), behind=behind)
    look = Look([])
    before = look.at(left_by(log, State(0)))
    assert said == b"drained 3\n" and before[0][:2] == (0, b"INBOX 3\n"), (said, before)
    counts = Counter(path.split("/")[1] for path in left_by(log, State(len(log.calls))) if path.startswith("Maildir/"))
    assert counts == ({"cur": 2, "new": 1} if script else {"new": 3}), counts
    return log, look, moves(before)


def moves(before):
    """Judges by where the messages are: none is lost, and once the word has answered none is in the store."""
    def judge(state, answers):
        if not is_drained(before, state) or answers != {0} and state[0][1]:
            return None
        return f"{len(state[1])} in the Maildir and {len(messages_of(state))} in the store"

    return judge


# What becomes of a run at a sync.
BROKEN = {"killed": "error=EIO:signal=KILL", "refused": "error=EIO"}


def first_sync(room, words_in, talk=None):
    """Which call of fsync is the first one behind the directories that a whole run makes."""
    calls = room.traced(*words_in(room), talk=talk)[2].splitlines()
    made = max(at for at, call in enumerate(calls) if re.match(r"\d+ +mkdir(at)?\(.* = 0$", call))
    return sum(bool(re.match(r"\d+ +fsync\(", call)) for call in calls[:made]) + 1


def broken_off(room, how, words_in, number, talk=None):
    """What a room has before a run that is broken off at its fsync of that number, and the calls of that run."""
    before = files_of(room.folder)
    status, _, calls = room.traced(*words_in(room), talk=talk, inject=f"fsync:{BROKEN[how]}:when={number}")
    failed = re.findall(r" fsync\(\d+\) += (?!0\n).*", calls)
    assert status == {"killed": -signal.SIGKILL, "refused": 75}[how] and len(failed) == 1, (status, failed)
    return before, calls


def drain():
    """Each message is in the store, in the Maildir or in both, whole; the first ones leave first."""
    return sweep(*moving())


def drain_seen():
    """The same, where the first message and the last one come into `cur`."""
    return sweep(*moving(SEEN))


def drain_made():
    """The same, where `cur` is made for the first one."""
    return sweep(*moving(SEEN, ("tmp", "new")))


def drain_killed():
    """The same, where a first run was killed between making `cur` and its sync: the second one finds a `cur` whose name may be lost."""
    return sweep(*moving(SEEN, ("tmp", "new"), "killed"))


def drain_refused():
    """The same, where that sync failed."""
    return sweep(*moving(SEEN, ("tmp", "new"), "refused"))


def daemon():
    """The daemon makes a Maildir and moves a message into it, where a first one was killed between making that and its sync."""
    rooms = Room(), Room()
    for room in rooms:
        os.mkdir(f"{room.folder}/mail")
        room.run("deliver", "--from", "bob@example.net", "--to", "alice@example.org", "alice", data=MAIL % 0)
    words_in = lambda room: ("daemon", "--mail", f"{room.folder}/mail")
    behind = broken_off(rooms[0], "killed", words_in, first_sync(rooms[1], words_in, until_moved), until_moved)
    log, _ = rooms[0].recorded(*words_in(rooms[0]), talk=until_moved, behind=behind, ends=-signal.SIGTERM)
    look = Look([])
    before, after = (look.at(left_by(log, State(moment))) for moment in (0, len(log.calls)))
    assert before[0][:2] == (0, b"INBOX 1\n") and (after[0][:2], len(after[1])) == ((0, b""), 1), (before, after)
    return sweep(log, look, moves(before))


def daemon_together():
    """The daemon moves messages together: 64, of which one call may be lost, and four, of which three may; with --quick six."""
    return "; ".join(swept_batch(count, most) for count, most in ([(6, 1)] if trials.QUICK else [(64, 1), (4, 3)]))


def swept_batch(count, most):
    """Looks at all states of a batch; then at those of one in which the file of a message isn't synced, or the folder that it came to."""
    room = Room()
    os.mkdir(f"{room.folder}/mail")
    for number in range(count):
        room.run("deliver", "--from", "bob@example.net", "--to", "alice@example.org", "alice", data=b"Message-ID: <%d@example.net>\r\n\r\nHi\r\n" % number)
    log, _ = room.recorded("daemon", "--mail", f"{room.folder}/mail", talk=until_moved, ends=-signal.SIGTERM)
    look = Look([])
    before, after = (look.at(left_by(log, State(moment))) for moment in (0, len(log.calls)))
    assert (len(messages_of(before)), messages_of(after), len(after[1])) == (count, [], count), (before, after)
    judge = lambda state, answers: of_batch(before, state)
    told, whole = f"{count} messages: {sweep(log, look, judge, most)}", log.calls
    name = [call for call in whole if call.kind == "name" and "/new/" in call.target[0]][-1]
    for target in name.target[1], os.path.dirname(name.target[0]):
        at = max(at for at, call in enumerate(whole) if call.target == target and has_work(whole, at))
        log.calls = whole[:at] + whole[at + 1:]
        assert is_found(log, look, judge), f"a sync of {target} is left out, and not found"
    return told


def gathered():
    """Messages over many connections at once: of those that share a commit a power cut leaves all or none, and what was answered stays."""
    return "; ".join(swept_commits(count, most) for count, most in ([(4, 1)] if trials.QUICK else [(20, 1), (3, 3)]))


def swept_commits(count, most):
    """Looks at all states of such deliveries; then at those of a log in which the last commit isn't synced."""
    users, look = [f"user{at}" for at in range(count)], Messages([])
    for _ in range(3):
        log, said = recorded_at_once(users)
        ends = [at for at, call in enumerate(log.calls) if call.kind == "sync"]
        chain = list(dict.fromkeys(look.at(left_by(log, State(at + 1))) for at in ends))
        assert [len(of) for of in (chain[0], chain[-1])] == [0, 2 * count] and said.count(b"250 2.1.5 file INBOX\r\n") == count, (chain, said)
        # The first message of each connection goes by itself; where it took long beside other work, so does the second one.
        if len(chain) <= 2 * count:
            break
    assert len(chain) <= 2 * count, f"{2 * count} messages in {len(chain) - 1} commits"
    judge = lambda state, answers: f"with {len(state)}" if state in chain and len(state) >= max(answers) else None
    told = f"{2 * count} messages in {len(chain) - 1} commits: {sweep(log, look, judge, most)}"
    said_last = max(at for at, call in enumerate(log.calls) if call.kind == "said")
    last = max(at for at in ends if at < said_last)
    log.calls = log.calls[:last] + log.calls[last + 1:]
    assert is_found(log, look, judge), "the sync of the last commit is left out, and not found"
    return told


def recorded_at_once(users):
    """The log of a daemon to which two messages to each of these users come, the second ones at once, and what those were answered."""
    room = Room(users=False)
    room.run("init")
    for user in users:
        room.run("adduser", "--salt", SALT, user, f"{user}@example.org", data=managesieve.PASSWORD + b"\n")
    log, said = room.recorded("daemon", "--lmtp", "0", talk=lambda process: answered_at_once(process, users), ends=-signal.SIGTERM)
    log.calls = [call for call in log.calls if not call.octets.startswith(b"listening on ")]
    return log, said


class Messages(Look):
    """Opens a state, and says which users have a message."""

    def at(self, files):
        with tempfile.TemporaryDirectory(dir=self.top.name) as folder:
            lay(folder, files)
            status, said = ask(folder, "users")
            return tuple(sorted(row[0] for row in dict(rows(folder))["copy"])) if status == 0 else (status, said)


def answered_at_once(process, users):
    """What a second message to each of these users is answered by a daemon, over a connection for each; all dots are sent at once."""
    port = int(process.stdout.readline().rsplit(b":", 1)[1])
    begun = re.search(rb" pid=(\d+)", process.stderr.readline())
    peers = [Peer(port) for _ in users]
    for peer, user in zip(peers, users):
        peer.say(b"LHLO c\r\n")
        peer.deliver(b"Subject: first\r\n\r\nHi\r\n", user.encode())
        peer.open(user.encode())
        peer.say(b"DATA\r\n")
        peer.sock.sendall(b"Subject: x\r\n\r\nHi\r\n")
    # The texts are read by then, so that only dots are to come.
    time.sleep(1)
    for peer in peers:
        peer.sock.sendall(b".\r\n")
    said = b"".join(peer.reply() for peer in peers)
    os.kill(int(begun[1]), signal.SIGTERM)
    return said


def of_batch(before, state):
    """Where a batch is: all of it in the store, some of it in the Maildir too; or all of it in the Maildir alone."""
    mails, moved = messages_of(before), Counter(state[1])
    if moved - Counter(mails):
        return None
    if state[0][-1] == before[0][-1]:
        return "in the store"
    without = tuple((table, () if table in ("copy", "message") else found) for table, found in before[0][-1])
    return "in the Maildir" if state[0][-1] == without and moved == Counter(mails) else None


def until_moved(process):
    """Ends a daemon that has moved a message, or says that it stays. One that is killed ends by itself."""
    begun = re.search(rb" pid=(\d+)", process.stderr.readline())
    if any(re.match(rb"sieved: (moved|stays) ", line) for line in process.stderr):
        os.kill(int(begun[1]), signal.SIGTERM)
    return b""


def messages_of(state):
    """The messages of the store, the first one first."""
    return [row[-1] for row in sorted(dict(state[0][-1])["message"], key=lambda row: row[1])]


def is_drained(before, state):
    """Whether messages have moved from the store into the Maildir, the first ones first, and at most one of them is in both."""
    mails, left, moved = messages_of(before), messages_of(state), sorted(state[1])
    gone = len(mails) - len(left)
    rows_left = tuple((table, found[gone:] if table in ("copy", "message") else found) for table, found in before[0][-1])
    is_whole = left == mails[gone:] and state[0][-1] == rows_left
    return is_whole and moved in (sorted(mails[:gone]), sorted(mails[:gone + 1]))


def session():
    """Three commands, each sent after the answer to the one before."""
    room = Room()
    room.talk(put_script(b"main", LONG + b"keep;\r\n"), b'SETACTIVE "main"\r\n', put_script(b"other", b"discard;\r\n"))
    commands = [put_script(b"main", LONG[:5_000] + b"\r\ndiscard;\r\n"), b'SETACTIVE "other"\r\n', b'DELETESCRIPT "main"\r\n', b"LOGOUT\r\n"]

    def talk(process):
        client = managesieve.Client(process.stdout, process.stdin)
        said = [client.reply()[-1]]
        for command in [login(), *commands]:
            client.send(command)
            said.append(client.reply()[-1])
        process.stdin.close()
        return said

    log, said = room.recorded("session", talk=talk)
    assert said[1:] == [b'OK "Logged in."\r\n', b'OK "Stored."\r\n', b'OK "Done."\r\n', b'OK "Done."\r\n', b'OK "Bye."\r\n'], said
    look = Look([b"main", b"other"])
    judge, shown = between(look, log)
    listed = [re.findall(rb'"(\w+)"( ACTIVE)?\r\n', show[4][1].split(b"Logged in.")[1]) for show in shown]
    first, second, third = [(b"main", b" ACTIVE"), (b"other", b"")], [(b"main", b""), (b"other", b" ACTIVE")], [(b"other", b" ACTIVE")]
    assert listed == [first, first, first, first, second, third, third], listed
    texts = [len(show[4][1]) for show in shown]
    assert texts[2] != texts[3], texts
    return sweep(log, look, judge)


def upgrade(file):
    """A store of an earlier version is one of version 3 then: of each state all is shown that was there, with the copies' own numbers."""
    room = Room(users=False)
    shutil.copy(f"{DATA}/{file}", f"{room.folder}/mail.db")
    old = old_rows(f"{room.folder}/mail.db")
    log, said = room.recorded("folders", "alice")
    look = Look([])
    whole = look.at(left_by(log, State(len(log.calls))))
    assert said == whole[0][1] == b"INBOX 2\nlists 3\nwork/notes 3\n", (said, whole)
    assert new_rows(dict(whole[0][-1])) == old, "the rows are others"
    return sweep(log, look, lambda shown, answers: "all there" if shown == whole else None)


def old_rows(db):
    """The rows that a file of version 1 or 2 has: those of the copies as version 3 has them, and those of the tables that stay."""
    with contextlib.closing(sqlite3.connect(f"file:{db}?mode=ro&immutable=1", uri=True)) as base:
        ((item, version),) = base.execute("SELECT item, value FROM meta").fetchall()
        assert item == "version" and version in (1, 2), (item, version)
        copies = base.execute("SELECT owner, folder, n, n, X'', message FROM copy" if version == 1 else
                              "SELECT owner, folder, n, id, X'', bytes FROM copy JOIN message USING (owner, id)").fetchall()
        return sorted(copies), *(sorted(base.execute(f"SELECT * FROM {table}").fetchall(), key=repr) for table in TABLES[1:6])


def new_rows(found):
    """The same of version 3, by its tables."""
    assert found["meta"] == (("version", 3),) and len(found["message"]) == len({(row[0], row[3]) for row in found["copy"]}), found["meta"]
    octets = {(owner, id): message for owner, id, message in found["message"]}
    return sorted((*row, octets[row[0], row[3]]) for row in found["copy"]), *(list(found[table]) for table in TABLES[1:6])


def upgrade_last():
    """With the copies after the other tables."""
    return upgrade("copies-last.db")


def upgrade_fourth():
    """With the copies before the queue, the replies and the notices."""
    return upgrade("copies-fourth.db")


def upgrade_second():
    """Of version 2."""
    return upgrade("version-2.db")


def commit(log, look, after):
    """The call that makes the change stand once it is synced, and that sync: the first moment that shows it, where nothing is lost."""
    made = next(moment for moment in range(len(log.calls)) if look.at(left_by(log, State(moment)))[0] == after)
    return made - 1, next(at for at in range(made, len(log.calls)) if log.calls[at].kind == "sync")


def again():
    """The power goes once more, while the program takes in what the first cut has left."""
    log, look = delivery(), Look([b"main"])
    _, before, after = one_change(log, look)
    made, sync = commit(log, look, after)
    said = []
    for wanted, state in (before, State(made, frozenset())), (after, State(sync + 1)), (after, State(sync + 1 + len(log.calls) >> 1)):
        room = Room(users=False)
        lay(room.folder, left_by(log, state))
        reading, folders = room.recorded("folders", "alice")
        assert folders == wanted[1], (folders, wanted[1])
        said.append(sweep(reading, look, lambda shown, answers: "as it was" if shown[0] == wanted else None))
    return "; ".join(said)


def unsynced():
    """The commit's sync fails, and the kernel drops what was written: the next word reads the disk, and not the kernel's copy."""
    trials.need_root()
    trials.need("strace", "losetup", "mkfs.ext2", "debugfs", "fallocate")
    log = delivery()
    _, before, after = one_change(log, Look([b"main"]))
    made, _ = commit(log, Look([b"main"]), after)
    written = sum(call.kind == "write" for call in log.calls[:made + 1])
    said = {}
    for how in "dropped", "kept":
        with weak_disk() as (folder, disk):
            lay(folder, left_by(log, State(0)))
            # The first word that opens the store where it lies now notes which file it is, as the one whose writes were counted found it.
            folders_of(folder, "dropped")
            status, told = stopped_delivery(folder, disk, written)
            said[how] = status, told, folders_of(folder, how), folders_of(folder, "dropped")
    wanted = 75, before[1]
    assert (said["dropped"][0], said["dropped"][2]) == wanted and said["dropped"][3] == before[1], said
    assert (said["kept"][0], said["kept"][2]) == (75, after[1]), said
    return f"{said['dropped'][1][:80]!r}; then as before; where the kernel's copy is kept the next word reads what isn't on the disk"


@contextlib.contextmanager
def weak_disk():
    """A file system on a file that loses its room: what is written then is lost, and a sync says so."""
    with tempfile.TemporaryDirectory(prefix="sieved-weak-") as top:
        room, place = f"{top}/room", f"{top}/place"
        os.mkdir(room), os.mkdir(place)
        subprocess.run(["mount", "-t", "tmpfs", "-o", "size=8m", "tmpfs", room], check=True)
        try:
            subprocess.run(["truncate", "-s", "64M", f"{room}/disk"], check=True)
            subprocess.run(["mkfs.ext2", "-q", "-b", "4096", f"{room}/disk"], check=True)
            subprocess.run(["mount", "-o", "loop", f"{room}/disk", place], check=True)
            try:
                yield place, f"{room}/disk"
            finally:
                subprocess.run(["umount", place], check=True)
        finally:
            subprocess.run(["umount", room], check=True)


def stopped_delivery(folder, disk, written):
    """A delivery over a disk that loses the log's first block between the write that commits and its sync."""
    os.sync()
    block = int(subprocess.run(["debugfs", "-R", "bmap /mail.db-wal 0", disk], capture_output=True, check=True).stdout.split()[0])
    words = "--from", "bob@example.net", "--to", "alice@example.org", "--at", "1700000000", "alice"
    inject = f"inject=pwrite64:signal=SIGSTOP:when={written}"
    command = ["strace", "-f", "-qq", "-o", f"{folder}/trace", "-e", "trace=pwrite64", "-e", inject, PROGRAM[0], "deliver", "--db", f"{folder}/mail.db", *words]
    with subprocess.Popen(command, stdin=subprocess.PIPE, stdout=subprocess.PIPE, stderr=subprocess.PIPE) as process:
        process.stdin.write(MAIL % 1)
        process.stdin.close()
        child = stopped_child(process.pid)
        subprocess.run(["fallocate", "-p", "-o", str(block * 4096), "-l", "4096", disk], check=True)
        fill(f"{os.path.dirname(disk)}/rest")
        os.kill(child, signal.SIGCONT)
        status, told = process.wait(), process.stderr.read()
    os.remove(f"{os.path.dirname(disk)}/rest")
    return status, told


def fill(path):
    """Takes all the room that is left."""
    with open(path, "wb", buffering=0) as rest:
        try:
            while rest.write(b"\0" * 4096):
                pass
        except OSError:
            pass


def stopped_child(parent):
    """The process that strace has started, once it stays stopped."""
    times = 0
    for _ in range(1_000):
        with open(f"/proc/{parent}/task/{parent}/children") as file:
            children = file.read().split()
        for child in children:
            with open(f"/proc/{child}/stat") as file:
                times = times + 1 if file.read().rsplit(") ", 1)[1][0] in "tT" else 0
            if times == 30:
                return int(child)
        time.sleep(0.01)
    raise AssertionError("not stopped")


def folders_of(folder, how):
    """What `folders` says where the kernel's copies of the files are dropped as it opens them, or where they are kept."""
    keeping = ["strace", "-f", "-qq", "-o", "/dev/null", "-e", "trace=fadvise64", "-e", "inject=fadvise64:retval=0"]
    command = [*(keeping if how == "kept" else []), PROGRAM[0], "folders", "--db", f"{folder}/mail.db", "alice"]
    return subprocess.run(command, capture_output=True, timeout=60).stdout


def planted():
    """A log that tells of a faulty program: without a sync, or with the answer before one."""
    log, look = delivery(), Look([b"main"])
    judge, before, after = one_change(log, look)
    answer = next(at for at, call in enumerate(log.calls) if call.kind == "said")
    syncs = [at for at in range(answer) if has_work(log.calls, at)]
    _, sync = commit(log, look, after)
    whole, found = log.calls, {"left out": [], "behind the answer": []}
    for at in [sync] if trials.QUICK else syncs:
        log.calls = whole[:at] + whole[at + 1:]
        found["left out"] += [syncs.index(at)] * is_found(log, look, judge)
        log.calls = whole[:at] + [whole[answer]] + whole[at:answer] + whole[answer + 1:]
        found["behind the answer"] += [syncs.index(at)] * is_found(log, look, judge)
    log.calls = whole
    assert all(syncs.index(sync) in places for places in found.values()), (syncs.index(sync), found)
    told = ", ".join(f"found where it is {how}" if trials.QUICK else f"found where {len(places)} are {how}, one by one" for how, places in found.items())
    told += "; " + planted_commit()
    return f"of {len(syncs)} syncs that have something to do the commit's is the {syncs.index(sync) + 1}th: {told}; {planted_in_drain()}"


def has_work(calls, at):
    """Whether a call is a sync that has something to do."""
    return calls[at].kind == "sync" and pending(calls, at) != pending(calls, at + 1)


def planted_in_drain():
    """A message's file, the folder that it has come to, or the one in which that was made, by this run or one before, isn't synced."""
    made = SEEN, ("tmp", "new")
    for part, moved, folders in ("new", moving(), ["Maildir/new"]), *(("cur", moving(*made, how), ["Maildir/cur", "Maildir"]) for how in (None, "killed")):
        log, look, judge = moved
        whole, name = log.calls, next(call for call in log.calls if call.kind == "name" and f"/{part}/" in call.target[0])
        for target in name.target[1], *folders:
            at = next(at for at, call in enumerate(whole) if call.target == target and has_work(whole, at))
            log.calls = whole[:at] + whole[at + 1:]
            assert is_found(log, look, judge), f"a sync of {target} is left out, and not found"
    return "of drain, found where a message, its folder or the one in which that was made isn't synced"


def planted_commit():
    """A program that commits before the last write: the logs of two deliveries as that of one."""
    room, words = Room(), ("deliver", "--from", "bob@example.net", "--to", "alice@example.org", "alice")
    first, last = (room.recorded(*words, data=MAIL % number)[0] for number in range(2))
    first.calls = [call for call in first.calls if call.kind != "said"] + last.calls
    look = Look([])
    assert is_found(first, look, one_change(first, look)[0]), "a commit before the last write isn't found"
    return "found where a commit stands before the last write"


def is_found(log, look, judge):
    try:
        sweep(log, look, judge, most=1)
    except AssertionError:
        return True
    return False


TRIALS = {trial.__name__: trial for trial in (init, adduser, deliver, done, imported, exported, drain, drain_seen, drain_made, drain_killed, drain_refused, daemon, daemon_together, gathered, session, upgrade_last, upgrade_fourth, upgrade_second, again, unsynced, planted)}


if __name__ == "__main__":
    trials.main(TRIALS, lambda program: PROGRAM.__setitem__(0, program))
