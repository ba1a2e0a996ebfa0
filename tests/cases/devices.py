#!/usr/bin/env python3
"""Writes crates/test_runs/data/devices.cases: one session of ManageSieve whose input fails at its kth read, for each k, and whose output
fails at its kth call, for each k; after each the next session, which is served and shows the scripts after the steps that were made.

What is wanted comes from the model below, written from RFC 5804, which knows nothing of the program.

The tables are made by the statements of runs.cases, and the password is digested once, so that a login costs nothing.

    python3 tests/cases/devices.py > crates/test_runs/data/devices.cases
"""
import hashlib, os

RUNS = f"{os.path.dirname(os.path.abspath(__file__))}/../../crates/test_runs/data/runs.cases"
SCRIPT = 'require "fileinto";\r\nfileinto "lists";\r\n'
# Each command, its answer, and what it makes of the scripts: whether `main` is there and active.
STEPS = [
    ('AUTHENTICATE "PLAIN" "AGFsaWNlAHNlY3JldA=="\r\n', 'OK "Logged in."\r\n', None),
    ('PUTSCRIPT "main" {40+}\r\n' + SCRIPT + "\r\n", 'OK "Stored."\r\n', "there"),
    ('SETACTIVE "main"\r\n', 'OK "Done."\r\n', "active"),
    ("LISTSCRIPTS\r\n", '"main" ACTIVE\r\nOK\r\n', "active"),
    ('GETSCRIPT "main"\r\n', "{40}\r\n" + SCRIPT + "\r\nOK\r\n", "active"),
    ("LOGOUT\r\n", 'OK "Bye."\r\n', "active"),
]
GREETING = ('"IMPLEMENTATION" "sieved 1"\r\n"SASL" "PLAIN"\r\n"SIEVE" "fileinto envelope vacation copy vacation-seconds subaddress relational comparator-i;ascii-numeric encoded-character mailbox date imap4flags"\r\n'
            '"MAXREDIRECTS" "16"\r\n"UNAUTHENTICATE"\r\n"VERSION" "1.0"\r\nOK\r\n')
NONE = 'NO (NONEXISTENT) "No such script."\r\n'
# The next session: what is there, and it is taken away again.
LOOK = 'LISTSCRIPTS\r\nGETSCRIPT "main"\r\nSETACTIVE ""\r\nDELETESCRIPT "main"\r\n'
SALT = b"0123456789abcdef"


def account():
    """Statements that make a store with the account alice, whose digest is that of docs/STORE.md: SHA-256 over salt and password, and
    once more over the digest before, salt and password."""
    with open(RUNS) as file:
        tables = next(line.split("\t")[1] for line in file if line.startswith("new\tCREATE TABLE meta") and line.split("; ")[-1].startswith("CREATE INDEX copy_message"))
    digest = hashlib.sha256(hashlib.sha256(SALT + b"secret").digest() + SALT + b"secret").digest()
    values = ", ".join(f"x'{octets.hex()}'" for octets in (b"alice", b"alice@example.org", SALT))
    return f"{tables}; INSERT INTO account VALUES ({values}, 1, x'{digest.hex()}', NULL, 1, 1, 1)"


def escaped(text):
    return text.replace("%", "%25").replace("\r", "%0D").replace("\n", "%0A")


def row(call, number, given, wanted):
    print("\t".join([call, str(number), escaped(given), escaped(wanted)]))


def shown(made):
    """What the next session is told after so many steps."""
    state = STEPS[made - 1][2] if made else None
    listed = {None: "", "there": '"main"\r\n', "active": '"main" ACTIVE\r\n'}[state] + "OK\r\n"
    text = STEPS[4][1] if state else NONE
    return listed + text + 'OK "Done."\r\n' + ('OK "Done."\r\n' if state else NONE)


def reads(session):
    """Octets come one by one; from the call `number` on they don't."""
    for number in range(len(session) + 1):
        made, end = 0, 0
        for command, _, _ in STEPS:
            end += len(command)
            made += end <= number
        said = "".join(answer for _, answer, _ in STEPS[:made])
        row("gone", number, session, ("ended|" if made == len(STEPS) else "input or output failed|") + said)
        row("send", "alice", LOOK, shown(made))


def writes(session):
    """Octets come one by one and go by threes, each text ends with a flush; from the call `number` on they don't go."""
    texts = [GREETING, *(answer for _, answer, _ in STEPS)]
    calls = [-(-len(text) // 3) + 1 for text in texts]
    for number in range(sum(calls) + 1):
        said, left, whole = "", number, 0
        for text, needed in zip(texts, calls):
            said += text[:3 * left]
            if left < needed:
                break
            left, whole = left - needed, whole + 1
        row("mute", number, session, ("ended|" if whole == len(texts) else "input or output failed|") + said)
        row("send", "alice", LOOK, shown(min(whole, len(STEPS))))


def main():
    session = "".join(command for command, _, _ in STEPS)
    print("# Written by tests/cases/devices.py, from a model of RFC 5804. Rows are those of runs.cases. gone N, mute N: a session whose octets come one by\n"
          "# one, of which the reads, or the calls of the output, which takes three octets at a time, fail from the call with that number on,\n"
          "# counted from 0; how it ended and what the client was told, of gone what stands after the greeting. send: what the next session is\n"
          "# told of the scripts, which it takes away again.\n")
    print("\t".join(["new", account(), "done"]))
    print()
    reads(session)
    print()
    writes(session)
    print()
    row("run", "folders --db F alice", "-", "0||")


if __name__ == "__main__":
    main()
