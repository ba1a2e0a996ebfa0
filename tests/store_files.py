#!/usr/bin/env python3
"""Tries the files of a store: who may read them, and what is told where the store can't be used, written or closed.

  tests/store_files.py [--sieved SIEVED] [TRIAL ..]       SIEVED: the program, crates/sieved/out/sieved where none is named

The trials: made, kept, traced, sessions, failing, large, log, full, slow, replaced; without a word, all. Prints a line for each; the
last one counts them, and the status is 1 where one failed. `tests/run` runs it. It needs python3 on Linux; `traced` and `failing` need strace, `full` the right to
mount a tmpfs, `slow` and `replaced` need cc.
"""
import os, re, resource, shutil, signal, slow_disk, socket, sqlite3, stat, subprocess, sys, tempfile, time
from contextlib import closing
from managesieve import SIEVED

UMASKS = [0o000, 0o022, 0o077]
SALT = "000102030405060708090a0b0c0d0e0f"
MAIL = b"Subject: hi\r\n\r\n" + b"x" * 1000 + b"\r\n"
PUT_OFF = b'NO (TRYLATER) "Try later."\r\n'
# A login that fails: it asks the store.
ASKING = b'AUTHENTICATE "PLAIN" "AGFsaWNlAHg="\r\n'
ANSWERED = b'NO "Authentication failed."\r\n'
FAILED = b"sieved: store failed\n"
FULL = FAILED + b"sieved: disk is full: remove the reserve file beside the store\n"


class LeftOut(Exception):
    """What a trial needs isn't there."""


class Place:
    """A directory for the store `mail.db`, and the program."""

    def __init__(self, folder):
        self.folder, self.db = folder, f"{folder}/mail.db"

    def run(self, word, *words, given=b"", umask=0o022, before=(), **how):
        """Runs a word on the store: its status, and what it printed on either stream."""
        command = [*before, PROGRAM, word, "--db", self.db, *words]
        done = subprocess.run(command, input=given, capture_output=True, umask=umask, timeout=120, **how)
        return done.returncode, done.stdout, done.stderr

    def done(self, *words, **how):
        """The same, of a word that does what it says and tells nothing."""
        status, said, told = self.run(*words, **how)
        assert (status, told) == (0, b""), (words, status, said, told)
        return said

    def deliver(self, **how):
        return self.run("deliver", "--to", "alice@example.org", "alice", given=MAIL, **how)

    def make(self, **how):
        """A store with the account alice."""
        self.done("init", **how)
        self.done("adduser", "--salt", SALT, "alice", "alice@example.org", given=b"secret\n", **how)
        return self

    def count(self):
        """How many messages alice has."""
        said = self.done("folders", "alice")
        return int(said.split()[1]) if said else 0

    def modes(self):
        """The permissions of each file."""
        return {name: stat.S_IMODE(os.stat(f"{self.folder}/{name}").st_mode) for name in sorted(os.listdir(self.folder))}


def all_have(mode):
    return dict.fromkeys(["mail.db", "mail.db-wal", "mail.db.lock"], mode)


def made(new):
    for umask in UMASKS:
        place = new()
        place.done("init", umask=umask)
        assert place.modes() == all_have(0o600), (umask, place.modes())
        place.done("adduser", "--salt", SALT, "alice", "alice@example.org", given=b"secret\n", umask=umask)
        assert place.deliver(umask=umask)[0] == 0
        place.done("session", given=ASKING, umask=umask)
        os.remove(f"{place.db}.lock")
        place.done("folders", "--wait", "alice", umask=umask)
        assert place.modes() == {**all_have(0o600), "mail.db.wait": 0o600}, (umask, place.modes())
    absent = new()
    assert absent.run("folders", "alice", umask=0)[0] == 65
    assert absent.modes() == {"mail.db.lock": 0o600}, absent.modes()
    return f"store, log, lock and waiting file are 0600 under the umasks {', '.join('%03o' % umask for umask in UMASKS)}"


def kept(new):
    for umask in UMASKS:
        for waited in False, True:
            place = new().make()
            if waited:
                place.done("folders", "--wait", "alice")
            for name in place.modes():
                os.chmod(f"{place.folder}/{name}", 0o640)
            assert place.deliver(umask=umask)[0] == 0
            place.done("session", given=ASKING, umask=umask)
            place.done("folders", "--wait", "alice", umask=umask)
            assert place.modes() == {**all_have(0o640), "mail.db.wait": 0o640 if waited else 0o600}, (umask, place.modes())
        empty = new()
        open(empty.db, "w").close()
        os.chmod(empty.db, 0o640)
        empty.make(umask=umask)
        assert empty.modes() == {"mail.db": 0o640, "mail.db-wal": 0o640, "mail.db.lock": 0o600}, (umask, empty.modes())
    return "files that are there keep 0640; the log of a store with 0640 is made so, a waiting file 0600"


def traced(new):
    calls = 0
    for group in False, True:
        place = new()
        if group:
            open(place.db, "w").close()
            os.chmod(place.db, 0o640)
        for words, given in (["init"], b""), (["adduser", "--salt", SALT, "alice", "alice@example.org"], b"secret\n"), (["deliver", "--to", "a@b", "alice"], MAIL):
            out = f"{place.folder}.trace"
            tracer = [strace(), "-f", "-y", "-o", out, "-e", "trace=open,openat,creat,fchmod,chmod,fchmodat,write,pwrite64,ftruncate"]
            place.done(*words, given=given, umask=0, before=tracer)
            calls += in_order(place, open(out).read().splitlines(), 0o640 if group else 0o600)
    return f"no file is open to others before the store is, in {calls} calls"


def in_order(place, lines, mode):
    """Files are made 0600 and, where the store is for others too, the log is made so before it is written."""
    written = set()
    for line in lines:
        if "O_CREAT" in line and place.folder in line and " = -1 EEXIST " not in line:
            assert re.search(r", 0600\) = ", line), line
        changed = re.search(r"chmod(?:at)?\(.*<(.*?)>.*, (0\d+)\)", line)
        if changed and changed[1].startswith(place.folder):
            assert int(changed[2], 8) == mode and changed[1] not in written, line
        put = re.search(r"(?:write|pwrite64)\(\d+<(.*?)>", line)
        if put and put[1].startswith(place.folder):
            written.add(put[1])
    assert written, lines
    return len(lines)


def sessions(new):
    kinds = {"absent": absent, "a text": text, "a directory": directory, "of another program": foreign, "of version 4": version, "of another user": unreadable}
    for kind, make in kinds.items():
        place = new()
        how = make(place) or {}
        status, _, told = place.run("folders", "alice", **how)
        assert status in (65, 75) and told.startswith(b"sieved: "), (kind, status, told)
        for talk in over_session, over_serve:
            said, heard = talk(place, **how)
            assert said.count(PUT_OFF) == 2 and ANSWERED not in said, (kind, said)
            assert heard == told, (kind, heard, told)
    place = new().make()
    for talk in over_session, over_serve:
        said, heard = talk(place)
        assert said.count(ANSWERED) == 2 and heard == b"", (said, heard)
    return f"two logins are put off, and told once as `folders` tells it, of a store that is {', '.join(kinds)}; of a good one nothing is told"


def absent(place):
    pass


def text(place):
    with open(place.db, "w") as file:
        file.write("no database " * 100)


def directory(place):
    os.mkdir(place.db)


def foreign(place):
    with closing(sqlite3.connect(place.db)) as db, db:
        db.execute("CREATE TABLE meta (x INTEGER)")


def version(place):
    place.make()
    with closing(sqlite3.connect(place.db)) as db, db:
        assert db.execute("UPDATE meta SET value = 4").rowcount == 1


def unreadable(place):
    place.make()
    os.chmod(place.folder, 0o755)
    if os.geteuid() == 0:
        return {"user": 65534, "group": 65534, "extra_groups": []}
    for name in os.listdir(place.folder):
        os.chmod(f"{place.folder}/{name}", 0)


def over_session(place, **how):
    status, said, told = place.run("session", given=2 * ASKING, **how)
    assert status == 0, (status, said, told)
    return said, told


def over_serve(place, **how):
    command = [PROGRAM, "serve", "--db", place.db, "--port", "0", "--sessions", "1"]
    with subprocess.Popen(command, stdout=subprocess.PIPE, stderr=subprocess.PIPE, **how) as server:
        port = int(server.stdout.readline().rsplit(b":", 1)[1])
        with socket.create_connection(("127.0.0.1", port), timeout=60) as client:
            client.sendall(2 * ASKING)
            client.shutdown(socket.SHUT_WR)
            said = b"".join(iter(lambda: client.recv(65_536), b""))
        told = server.communicate(timeout=60)[1]
        assert server.returncode == 0, (server.returncode, told)
        return said, told


def failing(new):
    """Each call on the store's files fails from some number on: with status 0 the message is there, once, and with 75 it is so or isn't."""
    base = new().make()
    assert base.deliver()[0] == 0
    unclosed = retried = 0
    for call in "pwrite64", "fdatasync", "ftruncate":
        for number in range(1, 100):
            place = new()
            shutil.copytree(base.folder, place.folder, dirs_exist_ok=True)
            tracer = [strace(), "-f", "-qq", "-o", "/dev/null", "-e", f"trace={call}", "-e", f"inject={call}:error=EIO:when={number}+"]
            status, said, told = place.deliver(before=tracer)
            found = place.count()
            if status == 0:
                assert (said, found) == (b"file INBOX\n", 2), (call, number, said, told, found)
                unclosed += told != b""
            else:
                assert (status, said) == (75, b"") and found in (1, 2), (call, number, status, said, told, found)
                retried += 1
            assert told == b"" or told.startswith(FAILED) and told.count(FAILED) == 1, (call, number, told)
            if not told:
                break
        assert not told, f"{call} still fails after {number} calls"
    assert unclosed and retried, (unclosed, retried)
    return f"of {unclosed + retried} deliveries over a disk that fails {retried} are to be tried again; {unclosed} couldn't close the store, are told so and stand once"


def large(new):
    """A limit on a file's size, which the file of a message and the lock meet: told as what it is, and the message stays."""
    place = new().make()
    message = MAIL + b"x" * 3_000_000
    assert place.run("deliver", "--to", "a@b", "alice", given=message)[0] == 0
    maildir = f"{place.folder}/Maildir"
    for part in "tmp", "new", "cur":
        os.makedirs(f"{maildir}/{part}")

    def limit():
        # The signal that comes with it would end the program: what starts it leaves it out, as a shell does after `trap '' XFSZ`.
        signal.signal(signal.SIGXFSZ, signal.SIG_IGN)
        resource.setrlimit(resource.RLIMIT_FSIZE, (2_000_000, 2_000_000))

    drained = place.run("drain", "alice", "INBOX", maildir, preexec_fn=limit)
    assert drained == (75, b"", b"sieved: input or output failed\nsieved: file would be too large\n"), drained
    assert place.count() == 1 and not any(os.listdir(f"{maildir}/{part}") for part in ("tmp", "new")), os.listdir(f"{maildir}/tmp")
    assert place.done("drain", "alice", "INBOX", maildir) == b"drained 1\n" and place.count() == 0
    (name,) = os.listdir(f"{maildir}/new")
    with open(f"{maildir}/new/{name}", "rb") as file:
        assert file.read() == message
    return "a message of 3 MB isn't drained where files may have 2 MB, is told so and stays; it is drained without the limit"


def log(new):
    """A log that lies beside a file that took the place of its own isn't read into it; one that came with its file is."""
    place = new().make()
    copy = f"{place.folder}/copy.db"
    shutil.copy(place.db, copy)
    logged(place)
    assert place.run("folders", "alice") == (0, b"INBOX 1\n", b""), "its own log"
    logged(place)
    # The file and its log are put elsewhere, and a copy of before takes the place of the file alone.
    for ending in "", "-wal":
        shutil.copy(place.db + ending, f"{place.folder}/both.db{ending}")
    before = open(f"{place.db}-wal", "rb").read()
    shutil.copy(copy, f"{copy}.new")
    os.rename(f"{copy}.new", place.db)
    for word in ("folders", "alice"), ("users",), ("deliver", "--to", "alice@example.org", "alice"):
        refused = place.run(*word, given=MAIL)
        assert refused == (75, b"", FAILED + b"sieved: log is that of a file that was replaced: move FILE-wal away\n"), refused
    assert open(f"{place.db}-wal", "rb").read() == before, "the log changed"
    os.rename(f"{place.db}-wal", f"{place.folder}/log")
    assert place.done("folders", "alice") == b""
    assert place.deliver()[0] == 0 and place.count() == 1
    # Both together are one store, here as elsewhere.
    for ending in "", "-wal":
        os.rename(f"{place.folder}/both.db{ending}", place.db + ending)
    assert place.count() == 2
    # The log of a store that was closed has nothing, whatever file it lies beside.
    shutil.copy(copy, f"{copy}.new")
    os.rename(f"{copy}.new", place.db)
    assert place.count() == 0 and place.deliver()[0] == 0 and place.count() == 1
    # One that is copied over, in place, with the log of a store that was closed.
    shutil.copy(copy, place.db)
    assert place.count() == 0
    return "refused with what is to be done, until it is moved away; read where it came with its file"


def logged(place):
    """A message comes to a daemon that is killed: it is in the log alone."""
    server = subprocess.Popen([PROGRAM, "daemon", "--db", place.db, "--lmtp", "0"], stdout=subprocess.PIPE, stderr=subprocess.DEVNULL)
    port = int(re.search(rb"(\d+)\D*$", server.stdout.readline())[1])
    with socket.create_connection(("127.0.0.1", port)) as peer:
        lines = peer.makefile("rb")
        lines.readline()
        for said in b"LHLO c\r\n", b"MAIL FROM:<s@x>\r\n", b"RCPT TO:<alice@x>\r\n", b"DATA\r\n", MAIL + b".\r\n":
            peer.sendall(said)
            while lines.readline()[3:4] == b"-":
                pass
    server.kill()
    server.wait()
    assert os.path.getsize(f"{place.db}-wal") > 1000


def full(new):
    place = new()
    if os.geteuid() != 0 or subprocess.run(["mount", "-t", "tmpfs", "-o", "size=2m", "tmpfs", place.folder], stderr=subprocess.DEVNULL).returncode:
        raise LeftOut("right to mount a tmpfs")
    try:
        return filled(place)
    finally:
        subprocess.run(["umount", place.folder], check=True)


def filled(place):
    reserve = f"{place.folder}/reserve"
    with open(reserve, "wb") as file:
        file.write(b"\0" * 1_048_576)
    place.make()
    count = 0
    while (ran := place.deliver())[0] == 0:
        count += 1
    # What a word wants of a disk is SQLite's to say, some 300 kB at most: once nothing is left none is delivered.
    with open(f"{place.folder}/rest", "wb", buffering=0) as file:
        while True:
            try:
                file.write(b"\0" * 4096)
            except OSError:
                break
    assert ran[0] == 75 and ran[2] == FULL, ran
    assert place.deliver() == (75, b"", FULL), place.deliver()
    os.remove(reserve)
    assert place.deliver()[0] == 0
    found = place.count()
    assert found == count + 1, (found, count)
    return f"a disk that is full after {count} deliveries is told, with what helps; without the reserve file the next one is delivered"


def slow(new):
    """On a disk that holds each sync a delivery takes as much longer as it has syncs, and answers the same."""
    if not shutil.which("cc"):
        raise LeftOut("cc")
    place, spans = new().make(), []
    for millis in 0, 100:
        began = time.monotonic()
        status, said, told = place.deliver(env={**os.environ, **slow_disk.environment(millis)})
        spans.append(time.monotonic() - began)
        assert (status, said, told) == (0, b"file INBOX\n", b""), (status, said, told)
    assert spans[1] - spans[0] > 0.1, spans
    return f"{1000 * spans[0]:.0f} ms, and {1000 * spans[1]:.0f} ms where each sync takes 100 ms more"


def replaced(new):
    """Where another store comes to the path while a message is being written, `deliver` ends as one that failed, so that it is
    tried again; both stores are sound, and the second try is in the new one. Where nothing is put there it ends well."""
    if not shutil.which("cc"):
        raise LeftOut("cc")
    place, other = new().make(), new().make()
    slow = {**os.environ, **slow_disk.environment(400)}
    command = [PROGRAM, "deliver", "--db", place.db, "--to", "alice@example.org", "alice"]
    for is_replaced in True, False:
        began = subprocess.Popen(command, stdin=subprocess.PIPE, stdout=subprocess.PIPE, stderr=subprocess.PIPE, env=slow)
        began.stdin.write(MAIL)
        began.stdin.close()
        time.sleep(0.3)
        if is_replaced:
            os.rename(place.db, f"{place.db}.old")
            os.rename(other.db, place.db)
        status, told = began.wait(60), began.stderr.read()
        assert (status, told) == ((75, FAILED + b"sieved: file was removed or replaced\n") if is_replaced else (0, b"")), (is_replaced, status, told)
    assert place.count() == 1, place.count()
    return "75 where the file was replaced meanwhile, and 0 where it wasn't"


def strace():
    path = shutil.which("strace")
    if path is None:
        raise LeftOut("strace")
    return path


TRIALS = [made, kept, traced, sessions, failing, large, log, full, slow, replaced]


def tried(trial):
    """Whether a trial passed; None where it was left out."""
    with tempfile.TemporaryDirectory(prefix="sieved-files-") as top:
        os.chmod(top, 0o755)

        def new():
            return Place(tempfile.mkdtemp(dir=top))

        try:
            print(f"{trial.__name__}: {trial(new)}", flush=True)
            return True
        except LeftOut as error:
            print(f"left out: store_files.py {trial.__name__}, no {error}", flush=True)
            return None
        except Exception as error:
            print(f"{trial.__name__}: FAILED, {type(error).__name__}: {error}", flush=True)
            return False


def main(words):
    global PROGRAM
    PROGRAM = SIEVED
    if words[:1] == ["--sieved"]:
        PROGRAM, words = os.path.abspath(words[1]), words[2:]
    named = {trial.__name__: trial for trial in TRIALS}
    if not set(words) <= set(named):
        sys.exit(__doc__)
    results = [tried(named[word]) for word in words or named]
    print(f"{results.count(True)} passed, {results.count(False)} failed, {results.count(None)} left out")
    return 1 if False in results else 0


if __name__ == "__main__":
    sys.exit(main(sys.argv[1:]))
