#!/usr/bin/env python3
"""Tries the upgrade of stores of versions 1 and 2: of version 1 with `copy` after the other tables, and with `copy` fourth, as the texts of the
tables have it; of version 2 with the index of the copies by their messages, and without it.

  tests/upgrade.py [--quick] [--sieved SIEVED] [TRIAL ..]       SIEVED: the program, crates/sieved/out/sieved where none is named

The trials: last, fourth, second, unindexed, empty, other, many, killed, disk, memory, written; without a word, all. The files of all but the
last one are written by Python's sqlite3, with mail of three users (`empty`: without). `many` opens a file of version 2 with 100,000 copies
(`--quick`: 10,000), and says how long it takes, and with how much memory. `killed` kills the program in the middle of the upgrade 100 times
(`--quick`: 10), the layouts in turn; a kill counts where the log of the store has some octets, and fewer than the whole upgrade writes.
In `disk` the disk is full on the way (as root), in `memory` a request for memory is refused (cc). `written` takes the files that programs of
versions 1 and 2 wrote (crates/test_runs/data/copies-last.db, copies-fourth.db and version-2.db). Where SIEVED_BEFORE names a program of version 1
or 2 there is one trial more, `refused`: it reads what became of such files. Prints a line for each; the last one counts them, and the status
is 1 where one failed. `tests/run` runs it, quick.
"""
import base64, os, random, shutil, signal, sqlite3, subprocess, tempfile, time
import memory, scripts, trials
from collections import Counter
from contextlib import closing
from managesieve import HERE, SIEVED

DATA = os.path.abspath(f"{HERE}/../crates/test_runs/data")
PACKAGING = os.path.abspath(f"{HERE}/../packaging")

BEGIN = [
    "CREATE TABLE meta (item TEXT NOT NULL PRIMARY KEY, value INTEGER NOT NULL) STRICT",
    "CREATE TABLE account (name BLOB NOT NULL PRIMARY KEY, address BLOB NOT NULL, salt BLOB NOT NULL, rounds INTEGER NOT NULL, digest BLOB NOT NULL, "
    "active BLOB, next_copy INTEGER NOT NULL, next_out INTEGER NOT NULL, next_notice INTEGER NOT NULL) STRICT",
    "CREATE TABLE script (owner BLOB NOT NULL REFERENCES account (name), name BLOB NOT NULL, text BLOB NOT NULL, PRIMARY KEY (owner, name)) STRICT",
]
COPY = [
    "CREATE TABLE copy (owner BLOB NOT NULL REFERENCES account (name), folder BLOB NOT NULL, n INTEGER NOT NULL, message BLOB NOT NULL, "
    "PRIMARY KEY (owner, folder, n)) STRICT"
]
LATER = [
    "CREATE TABLE outgoing (owner BLOB NOT NULL REFERENCES account (name), id INTEGER NOT NULL, kind INTEGER NOT NULL, sender BLOB NOT NULL, "
    "target BLOB NOT NULL, message BLOB NOT NULL, PRIMARY KEY (owner, id)) STRICT",
    "CREATE TABLE reply (owner BLOB NOT NULL REFERENCES account (name), handle BLOB NOT NULL, sender BLOB NOT NULL, moment INTEGER NOT NULL, "
    "PRIMARY KEY (owner, handle, sender)) STRICT",
    "CREATE TABLE notice (owner BLOB NOT NULL REFERENCES account (name), id INTEGER NOT NULL, moment INTEGER NOT NULL, text BLOB NOT NULL, "
    "PRIMARY KEY (owner, id)) STRICT",
]
ORDERS = {"last": BEGIN + LATER + COPY, "fourth": BEGIN + COPY + LATER}
SECOND = BEGIN + LATER + [
    "CREATE TABLE message (owner BLOB NOT NULL REFERENCES account (name), id INTEGER NOT NULL, bytes BLOB NOT NULL, PRIMARY KEY (owner, id)) STRICT",
    "CREATE TABLE copy (owner BLOB NOT NULL REFERENCES account (name), folder BLOB NOT NULL, n INTEGER NOT NULL, id INTEGER NOT NULL, "
    "PRIMARY KEY (owner, folder, n), FOREIGN KEY (owner, id) REFERENCES message (owner, id)) STRICT",
]
INDEX = ["CREATE INDEX copy_message ON copy (owner, id)"]
# the tables of each layout, and their version
LAYOUTS = {**{order: (tables, 1) for order, tables in ORDERS.items()}, "second": (SECOND + INDEX, 2), "unindexed": (SECOND, 2)}
USERS = [b"alice", b"bob", b"carol"]
FOLDERS = [b"INBOX", b"lists", b"work"]
OTHERS = ["SELECT * FROM account ORDER BY name", "SELECT * FROM script ORDER BY owner, name", "SELECT * FROM outgoing ORDER BY owner, id",
          "SELECT * FROM reply ORDER BY owner, handle, sender", "SELECT * FROM notice ORDER BY owner, id"]
OLD_COPIES = "SELECT owner, folder, n, n, message FROM copy ORDER BY owner, n"
COPIES = ("SELECT copy.owner, copy.folder, copy.n, copy.id, message.bytes FROM copy JOIN message ON message.owner = copy.owner AND message.id = copy.id "
          "ORDER BY copy.owner, copy.n")


def rows(db, *queries):
    with closing(sqlite3.connect(db)) as conn:
        return [conn.execute(query).fetchall() for query in queries]


def write(db, tables, each, size, version=1):
    """A file of these tables, where each user has so many copies of messages of some size, a script, a letter in the queue, a reply and a notice."""
    chance = random.Random(34)
    with closing(sqlite3.connect(db)) as conn, conn:
        for text in tables:
            conn.execute(text)
        conn.execute("INSERT INTO meta VALUES ('version', ?)", [version])
        for user in USERS:
            conn.execute("INSERT INTO account VALUES (?, ?, ?, 10000, ?, ?, ?, 3, 2)", [user, user + b"@example.org", b"s" * 16, b"d" * 32, b"main", each + 1])
            conn.execute("INSERT INTO script VALUES (?, ?, ?)", [user, b"main", b'keep;'])
            conn.execute("INSERT INTO outgoing VALUES (?, 2, 1, ?, ?, ?)", [user, b"x@example.net", b"to-" + user + b"@example.net", b"out of " + user])
            conn.execute("INSERT INTO reply VALUES (?, ?, ?, ?)", [user, b"\1h", b"x@example.net", 1_700_000_000 + len(user)])
            conn.execute("INSERT INTO notice VALUES (?, 1, 1700000000, ?)", [user, b"more than 16 redirects"])
        copies = [(user, chance.choice(FOLDERS), n, b"Subject: %s %d\r\n\r\n" % (user, n) + chance.randbytes(chance.randrange(size))) for user in USERS for n in range(1, each + 1)]
        chance.shuffle(copies)
        if any("TABLE message" in text for text in tables):
            write_shared(conn, copies)
        else:
            conn.executemany("INSERT INTO copy VALUES (?, ?, ?, ?)", copies)


def write_shared(conn, copies):
    """The same in version 2, where each third copy is one of the message of the copy before it."""
    octets = {(user, n): message for user, _, n, message in copies}
    of = {(user, n): n - 1 if n % 3 == 0 else n for user, _, n, _ in copies}
    conn.executemany("INSERT INTO message VALUES (?, ?, ?)", [(user, n, octets[user, n]) for user, n in octets if of[user, n] == n])
    conn.executemany("INSERT INTO copy VALUES (?, ?, ?, ?)", [(user, folder, n, of[user, n]) for user, folder, n, _ in copies])


def old_copies(version):
    return OLD_COPIES if version == 1 else COPIES


def program(db, *words, given=b""):
    done = subprocess.run([PROGRAM, words[0], "--db", db, *words[1:]], input=given, capture_output=True, timeout=120)
    return done.returncode, done.stdout, done.stderr


def folders(db, user):
    status, said, told = program(db, "folders", user.decode())
    assert (status, told) == (0, b""), (status, said, told)
    return said


def folders_of(copies, user):
    names = sorted({folder for owner, folder, *_ in copies if owner == user})
    return b"".join(b"%s %d\n" % (name, sum(owner == user and folder == name for owner, folder, *_ in copies)) for name in names)


def check(db, copies, others):
    """The program tells the folders of every user, and the file has version 3, sound, with the same copies, without flags, and other rows."""
    for user in USERS:
        assert folders(db, user) == folders_of(copies, user), user
    version, faults, breaches, now, *rest = rows(db, "SELECT item, value FROM meta", "PRAGMA integrity_check", "PRAGMA foreign_key_check", COPIES, *OTHERS)
    assert (version, faults, breaches) == ([("version", 3)], [("ok",)], []), (version, faults, breaches)
    assert now == copies, "the copies are others"
    assert rest == others, "other rows are others"
    messages = {(owner, id) for owner, _, _, id, _ in copies}
    assert rows(db, "SELECT count(*) FROM message", "SELECT DISTINCT flags FROM copy") == [[(len(messages),)], [(b"",)] if copies else []]


def opened(layout):
    tables, version = LAYOUTS[layout]
    with tempfile.TemporaryDirectory() as folder:
        db = f"{folder}/mail.db"
        write(db, tables, each=40, size=3000, version=version)
        copies, *others = rows(db, old_copies(version), *OTHERS)
        check(db, copies, others)
        with open(db, "rb") as file:
            before = file.read()
        check(db, copies, others)
        with open(db, "rb") as file:
            assert file.read() == before, "opened again, the file is another"
        for user in USERS:
            inbox = [message for owner, name, _, _, message in copies if (owner, name) == (user, b"INBOX")]
            for number in 1, len(inbox):
                assert program(db, "show", user.decode(), "INBOX", str(number)) == (0, inbox[number - 1], b"")
            assert program(db, "queue", user.decode(), "2") == (0, b"out of " + user, b"")
            assert program(db, "notices", user.decode()) == (0, b"1700000000 more than 16 redirects\n", b"")
            assert program(db, "deliver", "--to", "a@example.org", user.decode(), given=b"new") == (0, b"file INBOX\n", b"")
            assert program(db, "show", user.decode(), "INBOX", str(len(inbox) + 1)) == (0, b"new", b"")
    return f"{len(copies)} copies of {len(USERS)} users are there, with their numbers, and all other rows"


def empty():
    """Files without mail, as accounts have them that were made just now."""
    for tables, version in LAYOUTS.values():
        with tempfile.TemporaryDirectory() as folder:
            db = f"{folder}/mail.db"
            write(db, tables, each=0, size=1, version=version)
            copies, *others = rows(db, old_copies(version), *OTHERS)
            check(db, copies, others)
            assert copies == [] and program(db, "deliver", "--to", "a@example.org", "bob", given=b"new") == (0, b"file INBOX\n", b"")
            assert program(db, "show", "bob", "INBOX", "1") == (0, b"new", b"")
    return f"{len(LAYOUTS)} layouts: the accounts are there, and take mail"


def many():
    """A store with many copies: how long its upgrade takes, and how much memory at most, beside that of a store of today."""
    each = trials.some(100_000) // len(USERS)
    told = []
    with tempfile.TemporaryDirectory() as folder:
        db = f"{folder}/mail.db"
        for layout in "second", "unindexed":
            tables, version = LAYOUTS[layout]
            remove(db)
            write(db, tables, each, size=40, version=version)
            copies, *others = rows(db, COPIES, *OTHERS)
            taken, again = measured(db), measured(db)
            check(db, copies, others)
            told.append("{:.1f} s and {:.0f} MB".format(*taken) + " (opened again {:.1f} s and {:.0f} MB)".format(*again))
    return f"{len(copies):,} copies: with the index {told[0]}, without it {told[1]}"


def measured(db):
    """How many seconds a word takes that opens the store, and how many MB at most."""
    began = time.time()
    with subprocess.Popen([PROGRAM, "folders", "--db", db, "alice"], stdout=subprocess.DEVNULL) as process:
        _, status, used = os.wait4(process.pid, 0)
        process.returncode = os.waitstatus_to_exitcode(status)
    assert process.returncode == 0, process.returncode
    return time.time() - began, used.ru_maxrss / 1000


def other():
    """Another number of the version, and tables of both orders mixed: such a file is left alone."""
    wrong = [(ORDERS["last"], 0), (ORDERS["last"], 2), (ORDERS["fourth"], 3), (BEGIN + LATER[:1] + COPY + LATER[1:], 1),
             (SECOND, 1), (SECOND + INDEX, 3), (SECOND + ["CREATE INDEX copy_message ON copy (id)"], 2)]
    for tables, version in wrong:
        with tempfile.TemporaryDirectory() as folder:
            db = f"{folder}/mail.db"
            write(db, tables, each=2, size=100, version=version)
            with open(db, "rb") as file:
                before = file.read()
            assert program(db, "folders", "alice") == (65, b"", b"sieved: not a sieved database\n")
            with open(db, "rb") as file:
                assert file.read() == before
    return f"{len(wrong)} files of other tables or versions are left as they are"


def log_of(db):
    """How many octets the log beside the file has."""
    try:
        return os.stat(f"{db}-wal").st_size
    except FileNotFoundError:
        return 0


def upgrade_until(db, length):
    """Starts the upgrade, and kills it once the log has this length: the log's greatest length, and whether it was still running."""
    most = 0
    with subprocess.Popen([PROGRAM, "folders", "--db", db, "alice"], stdout=subprocess.DEVNULL) as process:
        while process.poll() is None:
            most = max(most, log_of(db))
            if most >= length:
                process.send_signal(signal.SIGKILL)
                process.wait()
    return most, process.returncode == -signal.SIGKILL


def killed():
    wanted = trials.some(100)
    chance, counts, tried = random.Random(time.time_ns()), Counter(), 0
    with tempfile.TemporaryDirectory() as folder:
        db = f"{folder}/mail.db"
        whole, had = {}, {}
        for layout, (tables, version) in LAYOUTS.items():
            write(f"{folder}/{layout}.db", tables, each=120, size=40_000, version=version)
            had[layout] = rows(f"{folder}/{layout}.db", old_copies(version), *OTHERS)
            shutil.copy(f"{folder}/{layout}.db", db)
            whole[layout], _ = upgrade_until(db, float("inf"))
            assert whole[layout] > 0, "the log was never seen"
            remove(db)
        while counts.total() < wanted:
            tried += 1
            assert tried <= 20 * wanted, f"only {counts.total()} of {tried} kills came in the middle"
            layout = list(LAYOUTS)[counts.total() % len(LAYOUTS)]
            shutil.copy(f"{folder}/{layout}.db", db)
            _, was_running = upgrade_until(db, chance.randrange(1, whole[layout]))
            counts[layout] += was_running and 0 < log_of(db) < whole[layout]
            check(db, had[layout][0], had[layout][1:])
            remove(db)
    return f"all mail is there after each of {counts.total()} kills in the middle, of {tried}: " + ", ".join(f"{count} of {layout}" for layout, count in counts.items())


def found_in(folder, version, had):
    """The version of the store in a folder as another program finds it, with all that it had before or with all that it has then."""
    with tempfile.TemporaryDirectory() as aside:
        for name in "mail.db", "mail.db-wal":
            if os.path.exists(f"{folder}/{name}"):
                shutil.copy(f"{folder}/{name}", aside)
        ((now,),), = rows(f"{aside}/mail.db", "SELECT value FROM meta")
        assert now in (version, 3), now
        assert rows(f"{aside}/mail.db", "PRAGMA integrity_check", COPIES if now == 3 else old_copies(version), *OTHERS) == [[("ok",)], *had], now
    return now


def disk():
    """Of a disk that is full before the upgrade is done the store is of its version still, and of version 3 once there is room."""
    found = Counter()
    for tables, version in LAYOUTS.values():
        with tempfile.TemporaryDirectory() as folder, tempfile.TemporaryDirectory() as small:
            write(f"{folder}/mail.db", tables, each=60, size=4000, version=version)
            had = rows(f"{folder}/mail.db", old_copies(version), *OTHERS)
            size = os.stat(f"{folder}/mail.db").st_size // 1024
            for room in (8, 24, 64, *range(100, 2 * size, size // (2 if trials.QUICK else 8))):
                with scripts.small_disk(small, size + room):
                    db = shutil.copy(f"{folder}/mail.db", small)
                    status, said, told = program(db, "folders", "alice")
                    assert status in (0, 75) and (said == b"") == (status == 75) == (told != b""), (status, said, told)
                    now = found_in(small, version, had)
                    assert status == 75 or now == 3, (status, now)
                    found[status, now] += 1
                    subprocess.run(["mount", "-o", f"remount,size={8 * size}k", small], check=True)
                    check(db, had[0], had[1:])
    assert found[75, 1] and found[75, 2] and found[0, 3], found
    return f"full on the way {found[75, 1] + found[75, 2]} times, the store as before; {found[75, 3]} times once it was done; {found[0, 3]} with room enough"


def no_memory():
    """Where a request for memory is refused the store is of its version still, or of version 3 with all of it."""
    found = Counter()
    for tables, version in LAYOUTS.values():
        with tempfile.TemporaryDirectory() as folder:
            write(f"{folder}/first.db", tables, each=4, size=3000, version=version)
            had = rows(f"{folder}/first.db", old_copies(version), *OTHERS)
            db = f"{folder}/mail.db"
            command = [PROGRAM, "folders", "--db", db, "alice"]
            shutil.copy(f"{folder}/first.db", db)
            *full, count = memory.refusing(command, 0)
            assert full == [0, folders_of(had[0], b"alice"), b""] and count, full
            for number in memory.numbers(count):
                remove(db)
                shutil.copy(f"{folder}/first.db", db)
                *ran, _ = memory.refusing(command, number)
                assert ran == full or ran[:2] == [75, b""] and ran[2] in (memory.REFUSED, b""), (number, ran)
                now = found_in(folder, version, had)
                assert ran != full or now == 3, number
                found["full" if ran == full else "done" if now == 3 else "as before"] += 1
                check(db, had[0], had[1:])
    assert found["as before"] and found["full"], found
    return f"{found.total()} requests refused one by one: the store as before {found['as before']} times, {found['done']} once it was done, {found['full']} without a refusal to tell"


def asked(db, *words, given=b""):
    """What a word prints that has nothing to tell."""
    status, said, told = program(db, *words, given=given)
    assert (status, told) == (0, b""), (words, status, said, told)
    return said


def session(db, user, *commands):
    """What a client of ManageSieve is answered, from the login on."""
    password = b"\0%s\0%s-secret" % (user, user)
    given = b'AUTHENTICATE "PLAIN" "%s"\r\n' % base64.b64encode(password) + b"".join(command + b"\r\n" for command in commands) + b"LOGOUT\r\n"
    said = asked(db, "session", given=given)
    return said[said.index(b'OK "Logged in."'):]


def shows_all(db, old):
    """The program shows the mail, the scripts, the queue, the notices and the moment of the reply that the old rows have, one by one."""
    copies, accounts, scripts, queue, replies, notices = old
    for user, address, *_ in accounts:
        name = user.decode()
        own = [(folder, message) for owner, folder, _, _, message in copies if owner == user]
        for folder in {folder for folder, _ in own}:
            for number, message in enumerate([message for other, message in own if other == folder], 1):
                assert asked(db, "show", name, folder.decode(), str(number)) == message, (user, folder, number)
        kinds = {1: b"redirect", 2: b"reply"}
        lines = [b"%d %s <%s> <%s> %d\n" % (id, kinds[kind], sender, target, len(message)) for owner, id, kind, sender, target, message in queue if owner == user]
        assert asked(db, "queue", name) == b"".join(lines), user
        for owner, id, *_, message in queue:
            assert owner != user or asked(db, "queue", name, str(id)) == message, (user, id)
        assert asked(db, "notices", name) == b"".join(b"%d %s\n" % (moment, text) for owner, _, moment, text in notices if owner == user), user
        texts = [(script, text) for owner, script, text in scripts if owner == user]
        said = session(db, user, b"LISTSCRIPTS", *(b'GETSCRIPT "%s"' % script for script, _ in texts))
        assert all(b"{%d}\r\n%s\r\n" % (len(text), text) in said or b'"%s"' % text in said for _, text in texts), (user, said)
        assert said.count(b"ACTIVE") == bool(texts), (user, said)
    return len(copies), len(scripts), len(queue), len(replies), len(notices)


# of each layout a file that a program wrote
WRITTEN = {"last": "copies-last.db", "fourth": "copies-fourth.db", "second": "version-2.db"}


def upgraded(folder, layout):
    """A file that a program of version 1 or 2 wrote, opened by this program: where it lies, and the rows that it had."""
    db = f"{folder}/mail.db"
    shutil.copy(f"{DATA}/{WRITTEN[layout]}", db)
    tables, version = LAYOUTS[layout]
    old = rows(db, old_copies(version), *OTHERS)
    assert rows(db, "SELECT value FROM meta", "SELECT group_concat(name) FROM (SELECT name FROM sqlite_master WHERE type IN ('table', 'index') AND sql != '' ORDER BY rootpage)") \
        == [[(version,)], [(",".join(name_of(table) for table in tables),)]]
    check(db, old[0], old[1:])
    return db, old


def name_of(table):
    return table.split()[2]


def written():
    """Files that programs of versions 1 and 2 wrote, the first with the copies last and fourth: all is shown, and the accounts go on as they were."""
    counts = {}
    for layout in WRITTEN:
        with tempfile.TemporaryDirectory() as folder:
            db, old = upgraded(folder, layout)
            counts[layout] = shows_all(db, old)
            words = "--from", "bob@example.net", "--to", "alice@example.org", "alice"
            assert asked(db, "deliver", *words[:-1], "--at", "1700600000", "alice", given=b"Subject: a\r\nTo: alice@example.org\r\n\r\n") == b"file INBOX\nvacation quiet 9\n"
            later = asked(db, "deliver", *words[:-1], "--at", "1700604800", "alice", given=b"Subject: b\r\nTo: alice@example.org\r\n\r\n")
            assert later == b"file INBOX\nvacation sent\n", later
            assert [line.split()[0] for line in asked(db, "queue", "alice").splitlines()] == [b"2", b"3"]
            assert asked(db, "deliver", "--to", "b@example.org", "bob", given=b"new") == b"file INBOX\n"
            assert asked(db, "show", "bob", "INBOX", "5") == b"new"
            assert rows(db, "PRAGMA integrity_check", "PRAGMA foreign_key_check") == [[("ok",)], []]
    assert counts["last"] == counts["fourth"] == counts["second"], counts
    return "of each file {} copies, {} scripts, {} rows of the queue, {} reply and {} notice are shown, and the accounts go on".format(*counts["last"])


def refused():
    """The program of before says that a store of today's version is none, and `sieved-deliver` makes 75 of it; the store stays."""
    before = os.environ["SIEVED_BEFORE"]
    for layout in WRITTEN:
        with tempfile.TemporaryDirectory() as folder:
            db, _ = upgraded(folder, layout)
            with open(db, "rb") as file:
                octets = file.read()
            env = {**os.environ, "SIEVED": before, "SIEVED_DB": db, "SIEVED_MAIL": f"{folder}/mail", "SIEVED_DRAIN": f"{PACKAGING}/sieved-drain"}
            for status, words in (65, [before, "folders", "--db", db, "alice"]), (75, [f"{PACKAGING}/sieved-deliver", "--to", "a@example.org", "alice"]):
                done = subprocess.run(words, input=b"x", capture_output=True, timeout=120, env=env)
                assert (done.returncode, done.stdout) == (status, b"") and b"sieved: not a sieved database\n" in done.stderr, (words, done)
            with open(db, "rb") as file:
                assert file.read() == octets, "the program of before wrote"
    return "it says `not a sieved database`, which sieved-deliver makes 75, and leaves the file as it is"


def remove(db):
    for name in db, f"{db}-wal", f"{db}-shm", f"{db}.lock":
        if os.path.exists(name):
            os.remove(name)


TRIALS = {**{layout: lambda layout=layout: opened(layout) for layout in LAYOUTS}, "empty": empty, "other": other, "many": many, "killed": killed, "disk": disk,
          "memory": no_memory, "written": written}
if "SIEVED_BEFORE" in os.environ:
    TRIALS["refused"] = refused
PROGRAM = SIEVED


def use(path):
    global PROGRAM
    PROGRAM = path


if __name__ == "__main__":
    trials.main(TRIALS, use)
