#!/usr/bin/env python3
"""Writes crates/test_sends/data/: letters.cases, refusals.cases and mailboxes.cases.

What a run does is worked out here from RFC 5321, sections 4.2, 4.3.2 and 4.5.3, over whole replies, and not from the program."""
import os
import random
import sys

HERE = os.path.dirname(os.path.abspath(__file__))
sys.path.insert(0, os.path.dirname(HERE))
import mailboxes

HOME = os.path.join(HERE, "..", "..", "crates", "test_sends", "data")
GREETING = b"220 s ESMTP\r\n"
HELLO = b"250-s\r\n250-SIZE 1000\r\n250-8BITMIME\r\n250 SMTPUTF8\r\n"
BARE = b"250 s\r\n"
BYE = b"221 bye\r\n"
TAKEN = [b"250 ok\r\n", b"250 ok\r\n", b"354 go\r\n", b"250 queued\r\n"]


def replies_in(stream):
    """The whole replies that stand first in a stream, as pairs of a code and its octets."""
    found = []
    while True:
        at, code, last = 0, None, False
        while not last:
            end = stream.find(b"\r\n", at)
            if end < 0:
                return found
            line = stream[at:end]
            if len(line) < 3 or not line[:3].isdigit() or line[:1] not in b"2345" or line[3:4] not in (b"", b" ", b"-"):
                return found
            if code not in (None, int(line[:3])):
                return found
            code, last, at = int(line[:3]), line[3:4] != b"-", end + 2
        found.append((code, stream[:at]))
        stream = stream[at:]


def sent(message):
    """A message as it is sent behind DATA, without a first field `Return-Path` (here of one line), and how many octets the other side has."""
    if message.startswith(b"Return-Path:"):
        message = message.partition(b"\n")[2]
    lines = message.split(b"\n")
    last = lines.pop()
    lines = [line[:-1] if line.endswith(b"\r") else line for line in lines] + ([last] if last else [])
    mended = [(b"?" if line.startswith(b"\r") else line[:1]) + line[1:].replace(b"\r", b" ") for line in lines]
    text = b"".join(line + b"\r\n" for line in mended)
    return b"".join((b"." if line.startswith(b".") else b"") + line + b"\r\n" for line in mended) + b".\r\n", len(text)


PATIENCE = 600


def run(stream, rows, bad=(), refusals=0):
    """What is noted, whether the run stopped, which rows are left, and what was written. So many times the queue refuses to give a row up,
    and a second is between two tries; after ten minutes the run ends. How many seconds were waited is noted too."""
    replies = replies_in(stream)
    written, noted, left = b"", [], []
    opened, used, offered, stopped, waited = False, False, b"", False, 0

    def hear():
        return replies.pop(0) if replies else (0, b"")

    for number, (sender, target, message) in enumerate(rows, 1):
        if stopped:
            left.append(number)
            continue
        if sender in bad or target in bad:
            noted.append(f"{number} unaddressed; ")
            left.append(number)
            continue
        if not opened:
            if used:
                noted.append(f"{number} lost; ")
                left.append(number)
                stopped = True
                continue
            used = True
            if hear()[0] // 100 == 2:
                written += b"EHLO h\r\n"
                code, offered = hear()
                opened = code // 100 == 2
            if not opened:
                noted.append(f"{number} lost; ")
                left.append(number)
                stopped = True
                continue
        words = [line[4:].split(b" ")[0].upper() for line in offered.split(b"\r\n")[1:]]
        wide = any(octet > 127 for octet in sender + target)
        eight = any(octet > 127 for octet in message)
        if wide and b"SMTPUTF8" not in words or eight and b"8BITMIME" not in words:
            noted.append(f"{number} undeclared; ")
            left.append(number)
            continue
        text, size = sent(message)
        mail = b"MAIL FROM:<" + sender + b">"
        mail += b" SIZE=%d" % size if b"SIZE" in words else b""
        mail += b" BODY=8BITMIME" if eight else b""
        mail += b" SMTPUTF8" if wide else b""
        ending = "sent"
        for line, wanted in ((mail + b"\r\n", 2), (b"RCPT TO:<" + target + b">\r\n", 2), (b"DATA\r\n", 3), (text, 250)):
            written += line
            code = hear()[0]
            if code == wanted or code // 100 == wanted:
                continue
            ending = "lost" if code == 0 else f"refused {code}" if code // 100 == 5 else f"delayed {code}" if code // 100 == 4 else f"unexpected {code}"
            break
        if ending == "sent" and refusals > PATIENCE:
            # Nothing is noted of it: the run ends with its name.
            waited, stopped = waited + PATIENCE, True
            left.append(number)
            continue
        noted.append(f"{number} {ending}; ")
        if ending == "sent":
            waited, refusals = waited + refusals, 0
            continue
        left.append(number)
        if ending == "lost":
            opened = False
        elif ending.startswith("unexpected"):
            written += b"QUIT\r\n"
            opened = False
        else:
            written += b"RSET\r\n"
            code = hear()[0]
            if code // 100 != 2:
                written += b"QUIT\r\n" if code else b""
                opened = False
    if opened and not (stopped and refusals):
        written += b"QUIT\r\n"
    told = "".join(noted) + ("stopped; left" if stopped else "left") + "".join(f" {number}" for number in left) + "; "
    return told.encode() + written, waited


def escaped(octets):
    text = "".join(chr(octet) if 32 < octet < 127 and octet != 37 or octet == 32 and len(octets) > 1 else f"%{octet:02X}" for octet in octets)
    return "%23" + text[1:] if text.startswith("#") else {"": "-", "-": "%2D"}.get(text, text)


def row(stream, rows, bad=()):
    cells = [escaped(stream)] + [escaped(cell) for each in rows for cell in each]
    return "\t".join(cells + [escaped(run(stream, rows, bad)[0])]) + "\n"


def refused(refusals, stream, rows):
    cells = [str(refusals), escaped(stream)] + [escaped(cell) for each in rows for cell in each]
    told, waited = run(stream, rows, refusals=refusals)
    return "\t".join(cells + [escaped(told + b"; %d" % waited)]) + "\n"


def letters():
    one = [(b"a@b", b"c@d", b"Subject: x\r\n\r\n.dot\r\ntext")]
    two = [(b"", b"c@d", b"one\n"), (b"e@f", b"g@h", b".\n..\n")]
    yield "# nothing to send: nobody is asked\n"
    yield row(b"", [])
    yield "# one row\n"
    whole = GREETING + HELLO + b"".join(TAKEN) + BYE
    yield row(whole, one)
    yield row(GREETING + BARE + b"".join(TAKEN) + BYE, one)
    yield "# each reply at each step: 2yz, 3yz, 4yz, 5yz, 250 behind the text alone, none, and what is no reply\n"
    for step in range(6):
        for reply in (b"250 x\r\n", b"251 x\r\n", b"220 x\r\n", b"334 x\r\n", b"354 x\r\n", b"421 x\r\n", b"450 x\r\n", b"500 x\r\n", b"550-a\r\n550 b\r\n", b"99 x\r\n",
                      b"250-a\r\n550 b\r\n", b"250\r\n", b"x\r\n"):
            parts = [GREETING, HELLO] + TAKEN
            parts[step] = reply
            yield row(b"".join(parts) + b"250 reset\r\n" + b"".join(TAKEN) + BYE, two)
    yield "# RSET is refused\n"
    yield row(GREETING + HELLO + b"550 no\r\n500 no\r\n", two)
    yield "# what is needed, and isn't offered\n"
    for hello in (HELLO, BARE, b"250-s\r\n250 8bitmime\r\n", b"250-s\r\n250-SmtpUtf8\r\n250 SIZES\r\n"):
        for each in ((b"a@b", b"c@d", "é\n".encode()), ("é@b".encode(), b"c@d", b"x\n"), (b"a@b", "c@é".encode(), "é\n".encode())):
            yield row(GREETING + hello + b"".join(TAKEN) * 2 + BYE, [each] + one)
    yield "# addresses that are none\n"
    bad = (b"a", b"a@b>", b"a b@c", b"a@b\r\nDATA")
    for each in bad:
        yield row(GREETING + HELLO + b"".join(TAKEN) + BYE, [(each, b"c@d", b"x\n"), (b"a@b", each, b"x\n")] + one, bad)
    yield "# a reply, as `vacation` makes one (RFC 5230, section 5); a message that is sent on, which somebody's server will send back; and a bounce that is\n"
    reply = b"From: <bob@example.org>\r\nTo: <dora@example.com>\r\nSubject: Auto: Hi\r\nAuto-Submitted: auto-replied\r\nIn-Reply-To: <1@example.com>\r\n\r\nAway"
    bounce = b"Return-Path: <>\r\nFrom: MAILER-DAEMON@example.net\r\nTo: alice@example.org\r\nContent-Type: multipart/report; boundary=b\r\n\r\n--b\r\n.\r\n--b--\r\n"
    yield row(whole, [(b"", b"dora@example.com", reply)])
    yield row(GREETING + HELLO + b"".join(TAKEN) * 2 + BYE, [(b"", b"carol@example.net", bounce), (b"dora@example.com", b"carol@example.net", b"Return-Path: <dora@example.com>\n\n")])
    yield "# a local part of 100 octets, a domain of 1,000, at either end; neither is cut\n"
    for each in (b"a" * 100 + b"@b", b"a@" + b".".join([b"d" * 63] * 16)):
        yield row(whole, [(each, b"c@d", b"x\n")])
        yield row(whole, [(b"a@b", each, b"x\n")])
    yield "# replies of several lines at each step\n"
    many = [b"220-s\r\n220 there\r\n", HELLO] + [reply[:3] + b"-one\r\n" + reply[:3] + b"-\r\n" + reply for reply in TAKEN]
    yield row(b"".join(many) + BYE, one)
    for count in range(0, len(b"".join(many)), 3):
        yield row(b"".join(many)[:count], one)
    draw = random.Random(37)
    yield "# messages of line ends, dots, NUL and others\n"
    for _ in range(200):
        message = bytes(draw.choice(b"\r\n\r\n..\0ax ") for _ in range(draw.randint(0, 12)))
        yield row(whole, [(b"a@b", b"c@d", message)])
    yield "# a connection that is lost at each octet of a dialogue of two rows\n"
    both = GREETING + HELLO + b"".join(TAKEN) * 2 + BYE
    for count in range(len(both) + 1):
        yield row(both[:count], two)


def refusals():
    """The store refuses right behind the 250: so many times, up to ten minutes."""
    one = [(b"a@b", b"c@d", b"x\n")]
    three = one + [(b"", b"g@h", b"y\n")] * 2
    whole = GREETING + HELLO + b"".join(TAKEN) * 3 + BYE
    for count in (0, 1, 2, 59, 599, 600, 601, 602, 5_000):
        yield refused(count, GREETING + HELLO + b"".join(TAKEN) + BYE, one)
        yield refused(count, whole, three)


def boxes():
    """Mailboxes and near misses, and address literals of numbers."""
    draw = random.Random(21)
    for text in mailboxes.drawn(600, draw):
        yield f"{escaped(text)}\t{'yes' if mailboxes.is_mailbox(text) else 'no'}\n"
    source = None
    for literal, is_one, said in mailboxes.numbered():
        if said != source:
            source = said
            yield f"# {said}\n"
        yield f"{escaped(f'a@{literal}'.encode())}\t{'yes' if is_one else 'no'}\n"


with open(os.path.join(HOME, "letters.cases"), "w", encoding="ascii") as out:
    out.write("# written by tests/cases/letters.py\n")
    out.writelines(letters())
with open(os.path.join(HOME, "refusals.cases"), "w", encoding="ascii") as out:
    out.write("# written by tests/cases/letters.py\n")
    out.writelines(refusals())
with open(os.path.join(HOME, "mailboxes.cases"), "w", encoding="ascii") as out:
    out.write("# written by tests/cases/letters.py\n")
    out.writelines(boxes())
