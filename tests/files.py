#!/usr/bin/env python3
"""Tries the cases of crates/test_runs/data/files.cases on the program: its words, and sessions, one after the other on a store in a file.

  tests/files.py [--sieved SIEVED]       SIEVED: the program, crates/sieved/out/sieved where none is named

The file says in its head what its columns are, and the README of crates/test_runs how octets are written. Each case that fails is a line,
`files.cases:9: wanted .., got ..`; the last line counts them, and the status is 1 where one failed. `tests/run` runs it. It needs
python3 on Linux.
"""
import fcntl, os, re, shutil, sqlite3, subprocess, sys, tempfile
from contextlib import closing
from urllib.parse import quote_from_bytes, unquote_to_bytes
from managesieve import SIEVED

DATA = os.path.abspath(f"{os.path.dirname(os.path.abspath(__file__))}/../crates/test_runs/data")
FILE = "files.cases"
LOGIN = b'AUTHENTICATE "PLAIN" "AGFsaWNlAHNlY3JldA=="\r\n'
LOGGED_IN = b'OK "Logged in."\r\n'
GREETED = b"OK\r\n"
REPEATED = re.compile(r"%\{([^*]*)\*(\d+)\}")


def decode(column):
    """The octets that a column stands for."""
    if column == "-":
        return b""
    plain = REPEATED.sub(lambda it: "".join(it[1].replace("%#", str(turn)) for turn in range(int(it[2]))), column)
    return unquote_to_bytes(plain)


def encode(octets):
    return quote_from_bytes(octets, safe=" !\"#$&'()*+,-./:;<=>?@[\\]^_`{|}~") or "-"


class Store:
    """The store `F`, the Maildir `F.d` and the script `F.s` in a folder, and the program."""

    def __init__(self, program, folder):
        self.program, self.path = program, f"{folder}/mail.db"

    def call(self, words, given):
        """Runs a word: its status, and what it wrote on both streams."""
        path = os.fsencode(self.path)
        words = [re.sub(rb"^F(?=$|\.[ds]$)", lambda _: path, word) for word in words.split(b" ")]
        done = subprocess.run([self.program, *words], input=given, capture_output=True, timeout=60)
        return done.returncode, done.stdout.replace(path, b"F"), done.stderr.replace(path, b"F")

    def run(self, words, given):
        status, said, told = self.call(words, given)
        return b"%d|%s|%s" % (status, said, told)

    def locked(self, words, given):
        """The same, while another process has the store."""
        with open(f"{self.path}.lock", "a") as lock:
            fcntl.flock(lock, fcntl.LOCK_EX)
            return self.run(words, given)

    def session(self, given):
        """What a client is told behind the greeting, and what is told of the store."""
        status, said, told = self.call(b"session --db F", given)
        assert status == 0, (status, told)
        greeting, line, answers = said.partition(GREETED)
        return (answers if line else greeting), told

    def talk(self, _most, given):
        answers, told = self.session(given)
        return b"ended|" + answers + (b"|" + told if told else b"")

    def send(self, _user, command):
        answers, told = self.session(LOGIN + command)
        assert not told, told
        return answers.removeprefix(LOGGED_IN)

    def sql(self, query):
        with closing(sqlite3.connect(self.path)) as other:
            return b"%d" % other.execute(query.decode()).fetchone()[0]

    def put(self, octets):
        with open(self.path, "wb") as store:
            store.write(octets)
        return b"done"

    def script(self, octets):
        with open(f"{self.path}.s", "wb") as script:
            script.write(octets)
        return b"done"

    def laid(self, name):
        if os.path.exists(f"{self.path}-wal"):
            os.remove(f"{self.path}-wal")
        shutil.copyfile(f"{DATA}/{name.decode()}", self.path)
        return b"done"

    def made(self, name):
        os.makedirs(f"{self.path}.d/{name.decode()}", exist_ok=True)
        return b"done"

    def file(self, name):
        try:
            with open(f"{self.path}.d/{name.decode()}", "rb") as message:
                return message.read()
        except FileNotFoundError:
            return b"no such file"


CALLS = {3: ["run", "locked", "talk", "send"], 2: ["sql", "put", "script", "laid", "made", "file"]}


def answer(store, call, given):
    """What comes of a row's columns; a call that fails comes to its error."""
    if call not in CALLS.get(len(given) + 1, []):
        return b"no such call"
    try:
        return getattr(store, call)(*given)
    except Exception as error:
        return repr(error).encode()


def main(program):
    counts = {True: 0, False: 0}
    with tempfile.TemporaryDirectory() as folder, open(f"{DATA}/{FILE}", encoding="utf-8") as rows:
        store = Store(program, folder)
        for number, line in enumerate(rows, 1):
            line = line.rstrip("\n")
            if not line or line.startswith("#"):
                continue
            call, *given, wanted = (decode(column) for column in line.split("\t") if column)
            got = answer(store, call.decode(), given)
            counts[got == wanted] += 1
            if got != wanted:
                print(f"{FILE}:{number}: wanted {encode(wanted)}, got {encode(got)}", flush=True)
    print(f"{counts[True]} passed, {counts[False]} failed", flush=True)
    sys.exit(1 if counts[False] or not counts[True] else 0)


if __name__ == "__main__":
    main(os.path.abspath(sys.argv[2]) if sys.argv[1:2] == ["--sieved"] else SIEVED)
