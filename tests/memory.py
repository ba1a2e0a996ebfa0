#!/usr/bin/env python3
"""Refuses each request for memory in turn, and sees that the answer is the full one or the refusal, and that nothing else changed.

  tests/memory.py [--quick] [--sieved SIEVED] [TRIAL ..]     SIEVED: the program, crates/sieved/out/sieved where none is named

`refuse_memory.c`, loaded before the C library, refuses the Nth request of a run. The trials of the first kind are the words of the
program over a file: each ends with 0 and all that it says, or with 75 and `out of memory`; then the store is read back, by the
program's words and table by table, and is as before or, where the word has done it, as after. Those of the second kind are calls of
the engine over a store in memory, which the program of crates/test_runs makes: between two marks one event or call happens, and what
is read after it is as before where it was refused, and as after where not. Those of the third kind are single texts (a script, an
address, a reply ..), of which the same program answers all or nothing.

In the trials whose names end in `none_left` each request from the Nth one on is refused, so that what comes after it runs with no
memory at all: the store is released, a client put off, a fault told. Of the engine's calls alone that can't be tried: the program that
makes them takes memory to tell what came.

A line for a trial says how many requests there were, at how many the answer was the refusal and at how many the full one; the last
line counts the trials, and the status is 1 where one failed. `tests/run` runs it, with --quick: some forty requests of each, spread
over all. It needs python3 and cc; what crates/test_runs tries needs its program, crates/test_runs/out/test_runs.
"""
import contextlib, io, os, re, shutil, sqlite3, struct, subprocess, tempfile
import managesieve, stops, trials
from collections import Counter
from concurrent.futures import ThreadPoolExecutor
from stops import LONG, MAIL, PROGRAM, SALT, SCRIPT, Look, Room, asking, by_path, files_of, login, put_script

CASES = os.path.abspath(f"{managesieve.HERE}/../crates/test_runs/out/test_runs")
DATA = os.path.abspath(f"{managesieve.HERE}/../crates/test_runs/data")
# The sizes of two requests that nothing else makes: those of the names of two users who aren't there.
FIRST, LAST = 77_777, 66_666
FEW = 24
REFUSED = b"sieved: out of memory\n"
STREAM = b"sieved: input or output failed\n"
PUT_OFF = [b'NO (TRYLATER) "Try later."\r\n']
STRANGER = [b'NO "Log in first."\r\n']
# That not only one request is refused, but each one after it too.
NONE_LEFT = {"REFUSE_ALL": "1"}
TOP = tempfile.TemporaryDirectory(prefix="sieved-memory-", dir="/dev/shm" if os.path.isdir("/dev/shm") else None)


def library():
    """What refuses requests, compiled."""
    trials.need("cc")
    made = f"{TOP.name}/refuse_memory.so"
    if not os.path.exists(made):
        source = f"{managesieve.HERE}/refuse_memory.c"
        subprocess.run(["cc", "-O2", "-shared", "-fPIC", "-o", f"{made}.new", source], check=True)
        os.rename(f"{made}.new", made)
    return made


def refusing(command, number, data=b"", cwd=None, **more):
    """Runs a command whose request with this number is refused: status, output, what it told, and how many requests there were."""
    with tempfile.NamedTemporaryFile(dir=TOP.name) as counted:
        counted.write(bytes(8))
        counted.flush()
        env = {"LD_PRELOAD": library(), "REFUSE": str(number), "COUNTED": counted.name, **more}
        done = subprocess.run(command, input=data, capture_output=True, timeout=300, cwd=cwd, env=env)
        counted.seek(0)
        return done.returncode, done.stdout, done.stderr, struct.unpack("Q", counted.read())[0]


def numbers(count):
    """The requests that are refused: each, or with --quick some forty of them, and one past the last."""
    step = max(count // 40, 1) if trials.QUICK else 1
    return [*range(1, count + 1, step), count + 1]


def table(count, refused, full, more=""):
    few = f" (fewer than {FEW}: it asks for no more)" if count < FEW else ""
    return f"{count} requests{few}, refused at {refused}, full at {full}{more}"


def each(count, call):
    """What comes of each request that is refused, counted."""
    with ThreadPoolExecutor(os.cpu_count()) as pool:
        try:
            return Counter(pool.map(call, numbers(count)))
        except AssertionError:
            pool.shutdown(cancel_futures=True)
            raise


# The words of the program, over a file.


def word(room, *words, data=b"", scripts=(), maildir=False, spoil=None, **more):
    """Tries a word over copies of a store; `spoil` is what a faulty program would do to the store after it was refused."""
    base, look = by_path(files_of(room.folder)), Look(scripts)
    before = look.at(base)

    def run(number):
        with tempfile.TemporaryDirectory(dir=TOP.name) as folder:
            stops.lay(folder, base)
            for part in ("tmp", "new", "cur") if maildir else ():
                os.makedirs(f"{folder}/Maildir/{part}", exist_ok=True)
            filled = [text.replace("FOLDER", folder) for text in words]
            command = [PROGRAM[0], filled[0], *(() if words[0] in ("try", "check") else ("--db", f"{folder}/mail.db")), *filled[1:]]
            ran = refusing(command, number, data, **more)
            if spoil and ran[0]:
                spoil(folder)
            return ran, look.at(by_path(files_of(folder)))

    (status, said, told, count), after = run(0)
    assert (status, told) == (0, b"") and count, (words, status, said, told, count)

    def judge(number):
        ran, shown = run(number)
        if ran[:3] == (0, said, b""):
            assert shown == after, f"request {number}: done, and the store isn't as after: {shown!r:.300}"
            return "full"
        refused = ran[0] == 75 and ran[2] in (REFUSED, b"") and said.startswith(ran[1])
        assert refused, f"request {number}: neither the full answer nor the refusal: {ran[:3]!r:.600}"
        if shown == before:
            return "refused, as before"
        assert is_on_its_way(before, shown, after, maildir), f"request {number}: refused, and the store is in between: {shown!r:.300}"
        return "refused once it was done"

    found = each(count, judge)
    once = found["refused once it was done"]
    refused = found["refused, as before"] + once
    assert found["full"] and refused, found
    return table(count, refused, found["full"], f"; of the refused ones {once} once it was done" if once else "")


def is_on_its_way(before, shown, after, maildir):
    """As after it; or of `drain`, whose messages move one by one: each is in the store or in the Maildir, the first ones there."""
    if shown == after:
        return True
    return maildir and stops.is_drained(before, shown)


def with_mail():
    """A store with mail, a queue and a notice, and a script that files, sends on and answers."""
    room = Room()
    for number in range(3):
        room.run("deliver", "--from", "bob@example.net", "--to", "alice@example.org", "alice", data=MAIL % number)
    room.talk(put_script(b"main", SCRIPT), b'SETACTIVE "main"\r\n', put_script(b"other", LONG + b"keep;\r\n"))
    room.run("deliver", "--from", "carol@example.net", "--to", "alice@example.org", "--at", "1699999999", "alice", data=MAIL % 3)
    return room


def try_word(**more):
    script = SCRIPT + b'if header :matches ["subject", "x-a"] ["*a*b*", "?*"] { fileinto "c"; }\r\n'
    return word(Room(), "try", "--to", "alice@example.org", data=b"%d\n" % len(script) + script + MAIL % 1, **more)


def init():
    return word(Room(users=False), "init")


def adduser():
    return word(Room(), "adduser", "--salt", SALT[::-1], "bob", "bob@example.org", data=b"another\n")


def deliver(spoil=None, **more):
    words = "--from", "bob@example.net", "--to", "alice@example.org", "--at", "1700000000", "alice"
    return word(with_mail(), "deliver", *words, data=MAIL % 4, scripts=[b"main"], spoil=spoil, **more)


def folders():
    return word(with_mail(), "folders", "alice")


def show():
    return word(with_mail(), "show", "alice", "INBOX", "2")


def queue():
    return word(with_mail(), "queue", "alice")


def queue_row():
    return word(with_mail(), "queue", "alice", "1")


def done(**more):
    return word(with_mail(), "done", "alice", "1", **more)


def notices():
    room = Room()
    room.talk(put_script(b"main", b'require "vacation"; vacation "a"; vacation "b";\r\n'), b'SETACTIVE "main"\r\n')
    for number in range(3):
        room.run("deliver", "--from", "bob@example.net", "--to", "alice@example.org", "--at", "5", "alice", data=MAIL % number)
    return word(room, "notices", "alice")


def drain(**more):
    return word(with_mail(), "drain", "alice", "INBOX", "FOLDER/Maildir", maildir=True, **more)


def users():
    room = with_mail()
    for name in "bob", "carol":
        room.run("adduser", "--salt", SALT, name, f"{name}@example.org", data=b"another\n")
    room.run("put", "--activate", "bob", 'a "b', data=b"keep;\r\n")
    return word(room, "users")


def passwd():
    return word(Room(), "passwd", "--salt", SALT[::-1], "alice", data=b"another\n")


def address():
    return word(Room(), "address", "alice", "alice@example.com")


def scripts_word():
    return word(with_mail(), "scripts", "alice", scripts=[b"main", b"other"])


def script_word():
    return word(with_mail(), "scripts", "alice", "main", scripts=[b"main", b"other"])


def put_file(**more):
    return word(with_mail(), "put", "--activate", "alice", "new", data=SCRIPT, scripts=[b"main", b"other", b"new"], **more)


def remove(**more):
    return word(with_mail(), "remove", "--mail", "alice", **more)


def open_word():
    """An account that is closed in the tables, as a move leaves it."""
    room = with_mail()
    with contextlib.closing(sqlite3.connect(f"{room.folder}/mail.db")) as store, store:
        store.execute("UPDATE account SET rounds = 0")
    return word(room, "open", "alice")


def notices_until(**more):
    room = Room()
    room.talk(put_script(b"main", b'require "vacation"; vacation "a"; vacation "b";\r\n'), b'SETACTIVE "main"\r\n')
    for moment in "5", "6", "7":
        room.run("deliver", "--from", "bob@example.net", "--to", "alice@example.org", "--at", moment, "alice", data=MAIL % 1)
    return word(room, "notices", "--until", "6", "alice", **more)


def export(**more):
    return word(stops.full_room(), "export", "alice", scripts=[b"main", b"other"], **more)


def export_closes(**more):
    return word(stops.full_room(), "export", "--and-close", "alice", scripts=[b"main", b"other"], **more)


def import_text(**more):
    text, room = stops.full_room().run("export", "alice"), Room(users=False)
    room.run("init")
    return word(room, "import", data=text, scripts=[b"main", b"other"], **more)


def check():
    return word(Room(), "check", data=SCRIPT)


# A session: each answer is the full one, or puts the client off.


def session(*commands, changes=True, **more):
    """Tries one command after a login."""
    room, scripts = with_mail(), [b"main", b"other", b"new"]
    base, look = by_path(files_of(room.folder)), Look(scripts)
    before = look.at(base)
    data = login() + b"".join(commands) + b"LOGOUT\r\n"

    def run(number):
        with tempfile.TemporaryDirectory(dir=TOP.name) as folder:
            stops.lay(folder, base)
            ran = refusing([PROGRAM[0], "session", "--db", f"{folder}/mail.db"], number, data, **more)
            return ran, look.at(by_path(files_of(folder)))

    (status, whole, told, count), after = run(0)
    assert (status, told) == (0, b"") and b"\r\nNO" not in whole and (before != after) == changes, (status, whole, told)
    answers = replies(whole)

    def judge(number):
        (status, said, told, _), shown = run(number)
        # Where none is left, both the client's trouble with the store and how the session ended are told.
        assert status in (0, 75) and told in (b"", REFUSED, *([2 * REFUSED] if more else [])), f"request {number}: {status}, {told!r}"
        given = replies(said)
        if given == answers:
            assert shown == after, f"request {number}: all was answered, and the store isn't as after: {shown!r:.300}"
            return "full"
        for at, answer in enumerate(given):
            assert answer in (answers[at], PUT_OFF, STRANGER), f"request {number}: {said!r:.600}"
        is_done = given[:3] == answers[:3]
        is_silent = len(given) == 2 and given == answers[:2]
        assert shown == after if is_done else shown == before or is_silent and shown == after, f"request {number}: {said!r:.300}, {shown!r:.300}"
        if shown == before:
            return "put off" if PUT_OFF in given else "refused, as before"
        return "refused, and done"

    found = each(count, judge)
    silent, refused = found["refused, and done"], found["refused, as before"] + found["put off"]
    assert found["full"] and refused and found["put off"], found
    told = f"; of the refused ones {silent} once it was done" if silent else ""
    return table(count, refused + silent, found["full"], f"{told}; at {found['put off']} the client was put off (`Session::give_up`)")


def replies(said):
    """The answers: the greeting, that to the login, that to the command, and the last one, as far as they are whole."""
    client, found = managesieve.Client(io.BytesIO(said), None), []
    while True:
        try:
            found.append(client.reply())
        except managesieve.Gone as end:
            assert end.args == (b"",), end
            return found


def put(**more):
    return session(put_script(b"new", LONG + b"discard;\r\n"), **more)


def put_again():
    return session(put_script(b"main", LONG + b"discard;\r\n"))


def activate():
    return session(b'SETACTIVE "other"\r\n')


def delete():
    return session(b'DELETESCRIPT "other"\r\n')


def rename():
    return session(b'RENAMESCRIPT "main" "new"\r\n')


def get():
    return session(b'GETSCRIPT "other"\r\n', changes=False)


def listed():
    return session(b"LISTSCRIPTS\r\n", changes=False)


def checked():
    return session(b"CHECKSCRIPT {%d+}\r\n%s\r\n" % (len(SCRIPT), SCRIPT), changes=False)


def planted():
    """A program that forgets a row of the queue once it was refused is found."""
    try:
        deliver(spoil=lambda folder: stops.ask(folder, "done", "alice", "1"))
    except AssertionError as error:
        assert "the store is in between" in str(error), error
        return "found where a row is forgotten after a refusal"
    raise AssertionError("a row is forgotten after a refusal, and that isn't found")


def serve():
    """The listener alone: it ends before the first client."""
    room = Room()
    command = [PROGRAM[0], "serve", "--db", f"{room.folder}/mail.db", "--port", "0", "--sessions", "0"]
    count = refusing(command, 0)[3]

    def judge(number):
        status, said, told, _ = refusing(command, number)
        if status == 0 and re.fullmatch(rb"listening on 127.0.0.1:\d+\n", said) and not told:
            return "full"
        assert status == 75 and told in (REFUSED, STREAM, b""), f"request {number}: {status}, {said!r}, {told!r}"
        return "refused"

    found = each(count, judge)
    return table(count, found["refused"], found["full"])


# Calls of the engine, over a store in memory.


def files_with(name, text):
    """A folder of cases where one file has a text, and the others none."""
    if not os.path.exists(CASES):
        raise trials.LeftOut("no crates/test_runs/out/test_runs")
    folder = tempfile.mkdtemp(dir=TOP.name)
    for other in os.listdir(DATA):
        with open(f"{folder}/{other}", "wb") as file:
            file.write(text if other == name else b"# none\n")
    return folder


ASKED = b"== wanted\n?\n"
WORLD = b"""# a user with two scripts, mail, a queue and a session
== from
bob@example.net

== moment
1700000000

== adduser alice
alice@example.org
secret
== deliver alice
Subject: first

x

== open 7

== give 7
AUTHENTICATE "PLAIN" "AGFsaWNlAHNlY3JldA=="

== step 7

== give 7
PUTSCRIPT "main" {128+}
require ["fileinto", "vacation"]; fileinto "a"; fileinto "b"; redirect "carol@example.com"; vacation "Away."; # xxxxxxxxxxxxxxxx

== step 7

== give 7
SETACTIVE "main"

== step 7

== give 7
PUTSCRIPT "other" {5+}
keep;

== step 7

== deliver alice
To: alice@example.org
Subject: second

y

"""
READS = b"""== scripts alice

== text alice main

== text alice other

== text alice new

== folders alice

== folder alice INBOX

== folder alice a

== queue alice

== notices alice

"""


def mark(size):
    return b"== takeout %s 1\n\n" % (b"m" * size) + ASKED


def told_by(text, number):
    """What each `wanted` is answered; none where a request of what reads the file was refused."""
    folder = files_with("sessions.cases", text)
    try:
        status, _, told, count = refusing([CASES], number, cwd=folder, FIRST=str(FIRST), LAST=str(LAST))
    finally:
        shutil.rmtree(folder)
    found = [line.split(b", got ", 1)[1] for line in told.splitlines() if line.startswith(b"sessions.cases:")]
    assert status == 1, (status, told)
    return found, count


def engine(call, before=b"", again=None, judge=None, first=b"", last=b"", asks=True):
    """Tries events, or calls of the store, that happen between two marks; after them all is read, then they happen again, and all is read.
    `first` happens before them, once all is read, and `last` each time before all is read again; without `asks` they ask for no memory."""
    text = WORLD + before + ASKED + READS + ASKED + first + mark(FIRST) + call + ASKED + mark(LAST) + last + READS + ASKED + (again or call) + ASKED + last + READS + ASKED
    whole, count = told_by(text, 0)
    assert len(whole) == 8 and count, (whole, count)
    assert not first or whole[5].endswith(whole[1]), whole

    def one(number):
        found, _ = told_by(text, number)
        if not found or found[2] != whole[2] or found[4] != whole[4]:
            return "outside"
        assert len(found) == 8 and found[:2] == whole[:2], f"request {number}: {found}"
        if found[3] == whole[3]:
            assert found == whole, f"request {number}: the full answer, and then {found[4:]}"
            return "full"
        return (judge or refusal)(number, whole, found)

    found = each(count, one)
    assert found["full"] and bool(found["refused"]) == asks, found
    return table(count - found["outside"], found["refused"], found["full"], f"; {found['outside']} were of the program that makes the call")


def refusal(number, whole, found):
    """The call was refused: what is read is as before, and the call, made again, answers as it would have."""
    last = found[3].split(b"%0A")[-1]
    assert last.endswith(b"refused: out of memory") or last in (b"not whole", b"need"), f"request {number}: {found[3]}"
    assert found[5] == whole[1], f"request {number}: refused, and then {found[5]}"
    assert (found[6], found[7]) == (whole[3], whole[5]), f"request {number}: refused, and then made again: {found[6:]}"
    return "refused"


def changed(number, whole, found):
    """A call of the store was refused: what is read is as before."""
    assert found[3].endswith(b"refused: out of memory") and found[5] == whole[1], f"request {number}: {found[3]}, and then {found[5]}"
    return "refused"


def given(octets):
    """Octets of a client, as a section; its own last line end isn't one of theirs."""
    return b"== give 7\n" + octets.replace(b"\r\n", b"\n") + b"\n"


def step(command, before=b""):
    """One step over a command that has come."""
    return engine(b"== step 7\n\n", before=before + given(command + b"\r\n"))


TWICE = b'require "vacation"; vacation "a"; vacation "b";'
MESSAGE = b"From: bob@example.net\nTo: alice@example.org\nSubject: =?utf-8?Q?caf=C3=A9?=\nMessage-ID: <m@example.net>\n\nHi\n\n"
ENGINE = {
    "event_open": lambda: engine(b"== open 8\n\n", again=b"== close 8\n\n== open 8\n\n", judge=opened),
    "event_deliver": lambda: engine(b"== moment\n1800000000\n\n== deliver alice\n" + MESSAGE),
    "event_deliver_failing": lambda: engine(b"== deliver alice\n" + MESSAGE, before=given(put_script(b"main", TWICE)) + b"== step 7\n\n"),
    "event_adduser": lambda: engine(b"== adduser bob\nbob@example.org\nsecret\n"),
    "event_takeout": lambda: engine(b"== takeout alice 1\n\n"),
    "event_takemail": lambda: engine(b"== takemail alice INBOX\n\n"),
    "step_given_up": lambda: engine(b"== step 7\n\n", before=given(b"NOOP\r\nNOOP\r\n"), again=b"== giveup 7\n\n" + b"== step 7\n\n" * 2, judge=given_up),
    "step_login": lambda: step(b'AUTHENTICATE "PLAIN" "AGFsaWNlAHNlY3JldA=="', before=b"== close 7\n\n== open 7\n\n"),
    "step_put": lambda: step(b'PUTSCRIPT "new" {8+}\ndiscard;'),
    "step_put_again": lambda: step(b'PUTSCRIPT "main" {8+}\ndiscard;'),
    "step_check": lambda: step(b'CHECKSCRIPT {20+}\nif true { discard; }'),
    "step_havespace": lambda: step(b'HAVESPACE "new" 1000'),
    "step_activate": lambda: step(b'SETACTIVE "other"'),
    "step_delete": lambda: step(b'DELETESCRIPT "other"'),
    "step_rename": lambda: step(b'RENAMESCRIPT "main" "new"'),
    "step_list": lambda: step(b"LISTSCRIPTS"),
    "step_get": lambda: step(b'GETSCRIPT "main"'),
    "step_capability": lambda: step(b"CAPABILITY"),
    "run": lambda: engine(b"== deliver alice x6\n" + MESSAGE, before=b"== send alice\nSETACTIVE \"\"\n\n", judge=ran),
    "store_create": lambda: engine(b"== create\n\n", last=b"== swap\n\n"),
    "store_open": lambda: engine(b"== reopen\n\n", judge=reopened, first=b"== create\n\n== swap\n\n== release\n\n", last=b"== swap\n\n"),
    "store_release": lambda: engine(b"== release\n\n", first=b"== create\n\n== swap\n\n", last=b"== reopen\n\n== swap\n\n", asks=False),
    "store_commit_delivery": lambda: engine(b"== commit alice\nSubject: third\n\nz\n"),
    "store_add_user": lambda: engine(b"== account bob\nbob@example.org\n"),
    "store_put_script": lambda: engine(b"== put alice new\ndiscard;\n"),
    "store_set_active": lambda: engine(b"== activate alice other\n\n"),
    "store_account": lambda: engine(b"== profile alice\n\n"),
    "store_queue": lambda: engine(b"== rows alice\n\n"),
    "store_replies": lambda: engine(b"== replies alice bob@example.net\n\n"),
    "store_last_reply": lambda: engine(b"== answered alice bob@example.net\n%02%00%00%00Away.\n"),
    "store_delete": lambda: engine(b"== delete alice other\n\n", again=b"== put alice other\nkeep;\n== delete alice other\n\n", judge=changed),
    "store_rename": lambda: engine(b"== rename alice other new\n\n", again=b"== rename alice new other\n\n", judge=changed),
    "store_take_out": lambda: engine(b"== dequeue alice 1\n\n", judge=changed),
    "store_script": lambda: engine(b"== text alice main\n\n"),
    "store_scripts": lambda: engine(b"== scripts alice\n\n"),
    "store_folders": lambda: engine(b"== folders alice\n\n"),
    "store_folder": lambda: engine(b"== folder alice INBOX\n\n"),
    "store_numbers": lambda: engine(b"== numbers alice INBOX\n\n"),
    "store_first_message": lambda: engine(b"== first alice INBOX\n\n"),
    "store_queue_heads": lambda: engine(b"== queue alice\n\n"),
    "store_notices": lambda: engine(b"== notices alice\n\n"),
    "store_next_filed": lambda: engine(b"== filed\n\n"),
    "store_next_queued": lambda: engine(b"== queued\n\n"),
}


def opened(number, whole, found):
    """A session that was refused isn't open: closing it is ignored, and it is opened then."""
    assert found[3] in (b"refused: out of memory", b"not whole") and found[5] == whole[1], f"request {number}: {found[3:6]}"
    assert found[6].startswith(b"ignored") and found[6].endswith(whole[3]) and found[7] == whole[7], f"request {number}: {found[6:]}"
    return "refused"


def reopened(number, whole, found):
    """The store wasn't opened: the connection that came back opens, and shows what it had."""
    assert found[3].endswith(b"refused: out of memory") and (found[6], found[7]) == (whole[3], whole[5]), f"request {number}: {found[3:]}"
    return "refused"


def given_up(number, whole, found):
    """The step was refused: giving up drops the command that it was over, and the next one is answered."""
    assert whole[6].startswith(PUT_OFF[0].rstrip()) and found[5] == whole[1], f"request {number}: {found[5:]}"
    assert found[6] == PUT_OFF[0].rstrip() + b'%0AOK "Done."%0Aneed', f"request {number}: {found[6]}"
    return "refused"


def ran(number, whole, found):
    """A list of deliveries: those that were answered are there, the refused ones aren't, and where no place for an answer was found it ends."""
    lines = found[3].split(b"%0A")
    filed = lines.count(b"file INBOX")
    assert set(lines) <= {b"file INBOX", b"refused: out of memory", b"not whole"} and b"not whole" not in lines[:-1], f"request {number}: {found[3]}"
    assert len(lines) == 6 or lines[-1] == b"not whole", f"request {number}: {found[3]}"
    there = b"INBOX %d" % (1 + filed)
    assert there in found[5], f"request {number}: {filed} filed, and then {found[5]}"
    return "refused"


# Texts: all or nothing.


def texts(name):
    """Tries the longest cases of a file: each request that is refused ends the run, or changes nothing."""
    with open(f"{DATA}/{name}.cases", "rb") as file:
        whole = file.read()
    if b"\n== " in whole:
        text = first_sections(whole)
    else:
        rows = [line for line in whole.split(b"\n") if line and not line.startswith(b"#") and b"%{" not in line]
        text = b"\n".join(sorted(rows, key=len)[-3:]) + b"\n"
    folder = files_with(f"{name}.cases", text)
    try:
        return all_or_nothing(name, folder)
    finally:
        shutil.rmtree(folder)


def all_or_nothing(name, folder):
    status, said, told, count = refusing([CASES], 0, cwd=folder)
    assert (status, told) == (0, b""), (status, told)
    held = re.search(rb"^%s.cases: (\d+) cases hold$" % name.encode(), said, re.M)[1].decode()
    place = said[:said.index(b"%s.cases:" % name.encode())].count(b"\n")

    def judge(number):
        ran = refusing([CASES], number, cwd=folder)
        if ran[:3] == (0, said, b""):
            return "full"
        assert ran[0] != 0 and b": wanted " not in ran[2] and said.startswith(ran[1]), f"request {number}: {ran[:3]}"
        return "refused"

    def is_behind(number, lines):
        """Whether a request comes after so many files: the run that it ends has told of these."""
        while number <= count:
            ended = refusing([CASES], number, cwd=folder)
            if ended[0]:
                return ended[1].count(b"\n") >= lines
            number += 1
        return True

    first, last = (bisect(count, lambda number: is_behind(number, lines)) for lines in (place, place + 1))
    some = range(first, last, max((last - first) // 200, 1) if trials.QUICK else 1)
    with ThreadPoolExecutor(os.cpu_count()) as pool:
        found = Counter(pool.map(judge, [*some, count + 1]))
    return f"{held} cases: " + table(last - first, found["refused"], found["full"])


def bisect(count, holds):
    """The first number for which something holds, which holds for all that follow."""
    low, high = 1, count + 1
    while low < high:
        middle = (low + high) // 2
        low, high = (low, middle) if holds(middle) else (middle + 1, high)
    return low


def first_sections(whole):
    """A file's sections up to the third case."""
    parts = re.split(rb"\n(?=== )", whole)
    cases = [at for at, part in enumerate(parts) if part.startswith((b"== wanted", b"== holds", b"== fails", b"== key", b"== reply"))]
    return b"\n".join(parts[:cases[min(2, len(cases) - 1)] + 1]) + b"\n"


TEXTS = ["addresses", "targets", "bare", "spellings", "words", "texts", "tokens", "faults", "items", "replies", "logins", "globs", "comparisons",
         "heads", "dates", "scripts", "tests", "vacations"]

WORDS = (try_word, init, adduser, deliver, folders, show, queue, queue_row, done, notices, drain,
         users, passwd, address, scripts_word, script_word, put_file, remove, open_word, notices_until, export, export_closes, import_text, check,
         put, put_again, activate, delete, rename, get, listed, checked, serve, planted)
AGAIN = (try_word, deliver, done, drain, put, put_file, remove, notices_until, export_closes, import_text)
TRIALS = {trial.__name__.removesuffix("_word"): trial for trial in WORDS} | ENGINE
TRIALS |= {f"{trial.__name__.removesuffix('_word')}_none_left": lambda trial=trial: trial(**NONE_LEFT) for trial in AGAIN}
TRIALS |= {f"text_{name}": lambda name=name: texts(name) for name in TEXTS}


if __name__ == "__main__":
    trials.main(TRIALS, lambda program: PROGRAM.__setitem__(0, program))
