#!/usr/bin/env python3
"""`check` tells line, column and word of a fault, and `import --as` adds an account under another name.

  tests/places.py [--sieved SIEVED] [TRIAL ..]       SIEVED: the program, crates/sieved/out/sieved where none is named

Lines and columns that are wanted were counted by hand. Prints a line for each trial, a last one that counts them, and ends with 1 where
one failed. `tests/run` runs it. It needs python3 alone.
"""
import subprocess, tempfile
import trials
from managesieve import SIEVED, Store

PROGRAM = [SIEVED]


class Host:
    """A store with a user."""

    def __init__(self, *users):
        self.store = Store(users or ("alice",), PROGRAM[0])

    def word(self, word, *more, data=b""):
        done = subprocess.run([*self.store.words(word), *more], input=data, capture_output=True)
        return done.returncode, done.stdout.decode(), done.stderr.decode()


def check():
    """`check` tells line, column and word; each kind of fault has its word, or none."""
    cases = {
        b'require "vnd.dovecot.pipe";': '1:9: unknown capability "vnd.dovecot.pipe"',
        b'require ["fileinto",\n  "vnd.dovecot.pipe",\n  "copy"];': '2:3: unknown capability "vnd.dovecot.pipe"',
        b"keep; frob; keep;": '1:7: unknown command "frob"',
        b"if frob { keep; }": '1:4: unknown test "frob"',
        b"if true { keep; } discard; else { keep; }": '1:28: elsif or else without if "else"',
        b'keep; require "fileinto";': '1:7: require after another command "require"',
        b'keep;\nfileinto "x";': '2:1: extension not required at "fileinto"',
        b'redirect :frob "a@example.org";': '1:10: unknown tag ":frob"',
        b'keep;\tredirect;': '1:7: missing argument at "redirect"',
        b'keep "x";': '1:1: too many arguments at "keep"',
        b'redirect 5;': '1:1: wrong argument at "redirect"',
        b'keep }': '1:6: unexpected token at "}"',
        b'keep ] ;': '1:6: unexpected token "]"',
        b'keep': '1:1: unexpected token at "keep"',
        b'keep "': "1: string is not closed",
        b'/* keep;': "1: comment is not closed",
        b'keep;\n\xff': "2: not UTF-8",
    }
    with tempfile.TemporaryDirectory() as folder:
        for text, wanted in cases.items():
            with open(f"{folder}/s", "wb") as file:
                file.write(text)
            done = subprocess.run([PROGRAM[0], "check", "s"], cwd=folder, capture_output=True)
            assert (done.returncode, done.stdout.decode(), done.stderr) == (65, f"s:{wanted}\n", b""), (text, done)
            done = subprocess.run([PROGRAM[0], "check"], input=text, capture_output=True)
            place, _, rest = wanted.partition(": ")
            line, _, column = place.partition(":")
            said = f"line {line}, column {column}: {rest}\n" if column else f"line {line}: {rest}\n"
            assert (done.returncode, done.stdout.decode()) == (65, said), (text, done)
    return f"{len(cases)} faults"


def renamed():
    """`import --as`: the same account under another name, with the memory of replies."""
    away = b'require "vacation"; vacation "Away.";'
    host = Host("alice")
    assert host.word("put", "--activate", "alice", "m", data=away)[0] == 0
    deliver = lambda user: host.word("deliver", "--at", "1700000000", "--from", "bob@example.net", "--to", "alice@example.org", user, data=b"To: alice@example.org\r\n\r\nx\r\n")
    assert deliver("alice") == (0, "file INBOX\nvacation sent\n", "")
    done = subprocess.run([*host.store.words("export"), "--and-close", "alice"], capture_output=True, check=True)
    assert host.word("import", "--as", "a b", data=done.stdout) == (65, "", "sieved: bad input\n")
    assert host.word("import", "--as", "alice.smith", data=done.stdout) == (0, "imported alice.smith\n", "")
    assert deliver("alice.smith")[1].startswith("file INBOX\nvacation quiet"), "who was answered stays answered"
    assert host.word("import", "--as", "alice.smith", data=done.stdout) == (65, "", "sieved: user exists\n")
    again = subprocess.run([*host.store.words("export"), "alice.smith"], capture_output=True, check=True).stdout
    assert host.word("remove", "--mail", "alice.smith")[0] == 0
    assert host.word("import", data=again) == (0, "imported alice.smith\n", "")
    return "alice is alice.smith, and answers nobody twice"


TRIALS = {trial.__name__: trial for trial in (check, renamed)}

if __name__ == "__main__":
    trials.main(TRIALS, lambda program: PROGRAM.__setitem__(0, program))
