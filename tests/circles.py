#!/usr/bin/env python3
"""Tries that mail doesn't breed: users of `sieved daemon` send on to each other in circles, and what their queues hand out is delivered again
until nothing waits.

  tests/circles.py [--quick] [--sieved SIEVED] [TRIAL ..]     SIEVED: the program, crates/sieved/out/sieved where none is named

A relay of this script stands for the mail servers between: it takes the rows as `sieved send` hands them out by SMTP, and delivers each by
LMTP to the user whose address it has. What is counted is the rows that it takes, all that ever were in the queues, of one message that came
to the first user. A user makes at most 16 of one message, so there are at most 16 for each user, whatever the scripts say and the relay does
to fields: it passes messages on as they are, takes each Delivered-To out, gives a message without a Message-ID one that all its copies
share, or gives each copy one of its own. Of the last a user makes 16 for each copy: at most 16 of the first user, who knows
the body, and 256 of each other one.

With --quick only messages without a Message-ID are tried. Prints a line for each trial, a last one that counts them, and ends with 1 where
one failed. It needs python3 alone.
"""
import hashlib, itertools, subprocess
import others, trials
from send import Server

PROGRAM = others.PROGRAM
USERS = ["alice", "bob", "carol", "dave", "erin", "frank"]
BODY = b"\r\nround and round\r\n"
MOST = 16


# ---- what the relay does to a message

def same(text):
    return text


def stripped(text):
    """Without any Delivered-To."""
    head, body = text.split(b"\r\n\r\n", 1)
    lines = [line for line in head.split(b"\r\n") if not line.lower().startswith(b"delivered-to:")]
    return b"\r\n".join(lines) + b"\r\n\r\n" + body


def named(text, name=None):
    """With a Message-ID besides, where it has none."""
    text = stripped(text)
    head, body = text.split(b"\r\n\r\n", 1)
    if b"\r\nmessage-id:" in b"\r\n" + head.lower():
        return text
    name = name or hashlib.sha256(body).hexdigest()
    return b"Message-ID: <%s@relay.example>\r\n" % name.encode() + text


NUMBERS = itertools.count(1)


def named_each(text):
    return named(text, str(next(NUMBERS)))


# ---- what the users' scripts say

def redirects(targets):
    return "".join(f'redirect "{target}";\r\n' for target in targets)


def ring(users, at):
    """16 addresses of the next user."""
    return redirects(f"{users[(at + 1) % len(users)]}+{n}@example.org" for n in range(MOST))


def spread(users, at):
    """16 addresses of all users, one's own among them."""
    return redirects(f"{users[(at + n) % len(users)]}+{n}@example.org" for n in range(MOST))


def branches(users, at):
    """Other 16 addresses of the next user for each detail of the address that the message came to."""
    following = users[(at + 1) % len(users)]
    sets = [[f"{following}+{MOST * branch + n}@example.org" for n in range(MOST)] for branch in range(MOST)]
    tests = "".join(f'if envelope :detail "to" "{n}" {{\r\n{redirects(targets)}stop;\r\n}}\r\n' for n, targets in enumerate(sets[1:]))
    return f'require ["envelope", "subaddress"];\r\n{tests}{redirects(sets[0])}'


# ---- rounds

def rows_made(users, script, relay, message):
    """How many rows the relay takes until no queue has one."""
    daemon = others.Daemon(users=users)
    server = Server()
    try:
        for at, user in enumerate(users):
            daemon.activate(user, script(users, at).encode())
        peer = daemon.peer()
        replies = peer.deliver(message, f"{users[0]}@example.org".encode())
        assert [reply[:3] for reply in replies] == [b"250"], replies
        made = 0
        while True:
            words = daemon.store.words("send", "--smtp", server.place)
            done = subprocess.run(words, capture_output=True, timeout=120)
            assert done.returncode == 0, done
            taken, server.taken = server.taken, []
            if not taken:
                return made
            made += len(taken)
            assert made <= 10_000, "it breeds"
            for sender, target, text in taken:
                peer.deliver(relay(text), target, sender=sender)
    finally:
        server.stop()
        daemon.stop()


def circles(count):
    users, made = USERS[:count], []
    messages = [b"From: s@x\r\nSubject: x\r\n" + BODY] + ([] if trials.QUICK else [b"From: s@x\r\nMessage-ID: <1@x>\r\n" + BODY])
    for message, script, relay in itertools.product(messages, [ring, spread, branches], [same, stripped, named, named_each]):
        rows = rows_made(users, script, relay, message)
        each_anew = relay is named_each and b"Message-ID" not in message
        bound = MOST + MOST * MOST * (count - 1) if each_anew else MOST * count
        assert MOST <= rows <= bound, (script.__name__, relay.__name__, message, rows, bound)
        made.append(rows)
    return f"{len(made)} circles, {min(made)} to {max(made)} rows of one message"


def one():
    """One user, who sends on to 16 addresses of the same account."""
    return circles(1)


def two():
    return circles(2)


def six():
    return circles(6)


def use(program):
    PROGRAM[0] = program


if __name__ == "__main__":
    trials.main({trial.__name__: trial for trial in (one, two, six)}, use)
