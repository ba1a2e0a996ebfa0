#!/usr/bin/env python3
"""Writes crates/test_runs/data/exports.cases: accounts that go out as texts and come in, on stores in memory.

Each text is spelled here, from README.md of crates/store_text; its SHA-256 and the digests of passwords are those of Python's
hashlib. What `export` is to print is what was spelled, octet by octet. What a delivery leaves is worked out from RFC 5228, RFC 5230
and docs/STORE.md; refusals come from docs/REFERENCE.md.

    python3 tests/cases/exports.py > crates/test_runs/data/exports.cases
"""
import datetime, hashlib
from accounttexts import Long, Many, account, column, percent

SALT, CLOCK = bytes(range(16)), 1_700_000_000
NO_STORE, NO_USER, BAD = (65, "not a sieved database"), (67, "no such user"), (65, "bad input")


def digest(password=b"secret", salt=SALT, rounds=10_000):
    """As docs/STORE.md has it."""
    found = hashlib.sha256(salt + password).digest()
    for _ in range(rounds):
        found = hashlib.sha256(found + salt + password).digest()
    return found


DIGEST = digest()


def owner(name=b"alice", address=b"alice@example.org"):
    return (name, address, SALT, DIGEST)


def row(call, *columns):
    print(call, *columns, sep="\t")


def shown(pieces):
    """As a column has them, with blanks as they are but at its end."""
    text = "".join(percent(piece) for piece in pieces).replace("%20", " ")
    return text[:-1] + "%20" if text.endswith(" ") else text


def left(status=0, output=(), fault=None, unread=0):
    """STATUS|OUTPUT|FAULTS, and what of the input wasn't read."""
    told = f"sieved: {fault}%0A" if fault else ""
    return f"{status}|{shown(output)}|{told}" + (f"|unread {unread}" if unread else "")


def run(words, given=(), output=(), status=0, fault=None, unread=0, call="run"):
    row(call, words, shown(given) or "-", left(status, output, fault, unread))


def said(words, text, given=()):
    run(words, given, [text])


def refused(words, why, given=(), unread=0, call="run"):
    run(words, given, (), *why, unread, call)


def title(text):
    print(f"\n# {text}\n")


def new_store(*names):
    row("new", "-", "done")
    said("init --db F", b"ready\n")
    for name in names:
        said(f"adduser --db F --salt {SALT.hex()} {name} {name}@example.org", f"added {name}\n".encode(), [b"secret"])


def imports(text, name=b"alice"):
    said("import --db F", b"imported " + name + b"\n", text)


def exports(text, name="alice"):
    run(f"export --db F {name}", (), text)


def comes_back(text, name=b"alice"):
    """It is imported, exported as it was, imported into another store, and exported as it was."""
    for _ in range(2):
        new_store()
        imports(text, name)
        exports(text, name.decode())


print("# Written by tests/cases/exports.py: accounts that go out as texts and come in, on stores in memory; rows are those of runs.cases. The texts are")
print("# spelled by README.md of crates/store_text; SHA-256 and digests by Python's hashlib. The clock says 1700000000.")

EMPTY = account(owner=owner())

title("an account without anything comes in, goes out as it was, and isn't added twice")
row("new", "-", "done")
refused("export --db F alice", NO_STORE)
refused("import --db F", NO_STORE, EMPTY)
said("init --db F", b"ready\n")
refused("export --db F alice", NO_USER)
refused("export --db F --and-close alice", NO_USER)
imports(EMPTY)
said("users --db F", b"alice - alice@example.org\n")
exports(EMPTY)
exports(EMPTY)
refused("import --db F", (65, "user exists"), EMPTY)
row("send", "alice", "NOOP%0D%0A", 'OK "Done."%0D%0A')
for word in "folders", "queue", "notices", "scripts":
    run(f"{word} --db F alice")
refused("export --db F bob", NO_USER)
row("run", "export --db F", "x", "64||error: |unread 1")
row("run", "import --db F alice", column(EMPTY), "64||error: |unread %d" % len(b"".join(EMPTY)))
run("export --db F alice", [b"unread"], EMPTY, unread=6)

title("the account that `adduser` makes is that text too, but for its own address")
new_store("alice")
exports(EMPTY)
said("address --db F alice a@example.net", b"changed alice\n")
exports(account(owner=owner(address=b"a@example.net")))

# What RFC 5228, RFC 5230 and docs/STORE.md make of two messages.
SCRIPT = b'require ["fileinto", "copy", "vacation"]; fileinto "b"; fileinto "a"; redirect :copy "carol@example.com"; vacation :handle "h" "Away."; keep;'


def letter(subject):
    return f"From: bob@example.net\r\nTo: alice@example.org\r\nSubject: {subject}\r\n\r\n{body_of(subject)}".encode()


def body_of(subject):
    return f"hi {subject}\r\n"


def sent(subject, target=b"carol@example.com", moment=CLOCK):
    """What is kept of a letter without a Message-ID that is sent on (docs/STORE.md): octet 3, the half day, counted from 1, in four octets,
    the SHA-256 of octet 2 and the body, octet 0 and the address; and that SHA-256 again."""
    name = hashlib.sha256(b"\x02" + body_of(subject).encode()).digest()
    return (b"reply", b"\x03" + (moment // 43_200 + 1).to_bytes(4, "big") + name + b"\x00" + target, name, moment)


def vacation(subject, moment=CLOCK, address="alice@example.org", sender="bob@example.net"):
    """RFC 5230, 5: the response."""
    at = datetime.datetime.fromtimestamp(moment, datetime.timezone.utc)
    lines = [f"From: {address}", f"To: <{sender}>", f"Subject: Auto: {subject}", at.strftime("Date: %a, ") + str(at.day) + at.strftime(" %b %Y %H:%M:%S +0000"),
             "Auto-Submitted: auto-replied", "MIME-Version: 1.0", "Content-Type: text/plain; charset=utf-8", "Content-Transfer-Encoding: 8bit", "", "Away."]
    return "".join(f"{text}\r\n" for text in lines).encode()


LOOPING = [Many(b"Received: x\r\n", 101), letter("three")]

title("all that deliveries leave: copies of one message, letters, an answer and its moment, a notice (RFC 5228, 2.10; RFC 5230, 4.2; docs/STORE.md)")
new_store("alice")
said("put --db F --activate alice main", b"stored main\n", [SCRIPT])
said("put --db F alice other", b"stored other\n", [b"keep;"])
DELIVER = "deliver --db F --from bob@example.net --to alice@example.org alice"
FILED = b"file b\nfile a\nfile INBOX\nsend carol@example.com\n"
said(DELIVER, FILED + b"vacation sent\n", [letter("one")])
said(DELIVER, FILED + b"vacation quiet 9\n", [letter("two")])
said(DELIVER, b"file INBOX\nnotice more than 100 Received fields\n", LOOPING)
parts = [(b"script", b"main", SCRIPT), (b"script", b"other", b"keep;"), (b"reply", b"\x01h", b"bob@example.net", CLOCK)]
parts += sorted([sent("one"), sent("two")])
for first, subject in (1, "one"), (4, "two"):
    parts += [(b"mail", first, b"b", letter(subject)), (b"copy", first + 1, b"a", first), (b"copy", first + 2, b"INBOX", first)]
parts += [(b"mail", 7, b"INBOX", LOOPING)]
parts += [(b"redirect", 1, b"bob@example.net", b"carol@example.com", letter("one")), (b"answer", 2, b"", b"bob@example.net", vacation("one")),
          (b"redirect", 3, b"bob@example.net", b"carol@example.com", letter("two"))]
parts += [(b"notice", 1, CLOCK, b"more than 100 Received fields")]
FULL = dict(owner=owner(), parts=parts, numbers=(10_000, 8, 4, 2), active=b"main")
exports(account(**FULL))
title("what is over of messages that were sent on goes with the next delivery by a script, also one that keeps only (docs/STORE.md)")
said("put --db F --activate alice other", b"stored other\n", [b"keep;"])
KEEP = "deliver --db F --from bob@example.net --to alice@example.org --at %d alice"
HALF = 43_200
LAST = (CLOCK // HALF + 2) * HALF - 1
parts_with = lambda kept, copies: account(owner=owner(), numbers=(10_000, 8 + copies, 4, 2), active=b"other",
    parts=[(b"script", b"main", SCRIPT), (b"script", b"other", b"keep;"), (b"reply", b"\x01h", b"bob@example.net", CLOCK)] + kept
    + [part for part in parts if part[0] in (b"mail", b"copy")] + [(b"mail", 8 + at, b"INBOX", letter("kept")) for at in range(copies)]
    + [part for part in parts if part[0] in (b"redirect", b"answer", b"notice")])
said(KEEP % LAST, b"file INBOX\n", [letter("kept")])
exports(parts_with(sorted([sent("one"), sent("two")]), 1))
said(KEEP % (LAST + 1), b"file INBOX\n", [letter("kept")])
exports(parts_with([], 2))
row("new", "-", "done")
said("init --db F", b"ready\n")
imports(account(**FULL))
title("what left a folder is in no text; the next copy of the message stands for it, and no number is given twice")
said("drain --db F alice b m", b"drained 2\n")
said("done --db F alice 1", b"taken 1\n")
gone = [part for part in parts if part[:3] not in [(b"mail", 1, b"b"), (b"mail", 4, b"b")] and part[:2] != (b"redirect", 1)]
gone = [{(b"copy", 2): (b"mail", 2, b"a", letter("one")), (b"copy", 3): (b"copy", 3, b"INBOX", 2), (b"copy", 5): (b"mail", 5, b"a", letter("two")),
         (b"copy", 6): (b"copy", 6, b"INBOX", 5)}.get(part[:2], part) for part in gone]
exports(account(**{**FULL, "parts": gone}))
row("new", "-", "done")
said("init --db F", b"ready\n")
imports(account(**{**FULL, "parts": gone}))
exports(account(**{**FULL, "parts": gone}))
said("folders --db F alice", b"INBOX 3\na 2\n")
said("show --db F alice a 1", letter("one"))
said(DELIVER, FILED + b"vacation quiet 9\n", [letter("four")])
said("queue --db F alice", b"2 reply <> <bob@example.net> %d\n3 redirect <bob@example.net> <carol@example.com> %d\n4 redirect <bob@example.net> <carol@example.com> %d\n"
     % (len(vacation("one")), len(letter("two")), len(letter("four"))))

title("a text comes back as it was, from one store into another, and what it tells is there")
comes_back(account(**FULL))
said("users --db F", b'alice "main" alice@example.org\n')
said("folders --db F alice", b"INBOX 3\na 2\nb 2\n")
said("show --db F alice INBOX 2", letter("two"))
said("queue --db F alice 2", vacation("one"))
said("notices --db F alice", b"1700000000 more than 100 Received fields\n")
said("scripts --db F alice", b'"main" ACTIVE\r\n"other"\r\n')
said("scripts --db F alice main", SCRIPT)
row("send", "alice", "DELETESCRIPT \"other\"%0D%0A", 'OK "Done."%0D%0A')
said("deliver --db F --from bob@example.net --to alice@example.org --at 1700604800 alice", FILED + b"vacation sent\n", [letter("later")])
title("the flags of copies (RFC 5232): a script gives each copy its own, and a text has them; a text without flags is as it was")
FLAGS = b'require ["fileinto", "imap4flags"]; setflag "\\\\Seen"; fileinto :flags ["\\\\Flagged", "$Label1"] "a"; fileinto :flags "" "b"; keep;'
new_store("alice")
said("put --db F --activate alice main", b"stored main\n", [FLAGS])
said(DELIVER, b"file a\nfile b\nfile INBOX\n", [letter("one")])
flagged = [(b"mail", 1, b"a", letter("one"), b"\\Flagged $Label1"), (b"copy", 2, b"b", 1), (b"copy", 3, b"INBOX", 1, b"\\Seen")]
FLAGGED = account(owner=owner(), parts=[(b"script", b"main", FLAGS)] + flagged, numbers=(10_000, 4, 1, 1), active=b"main")
exports(FLAGGED)
comes_back(FLAGGED)
said("drain --db F alice a m", b"drained 1\n")
exports(account(owner=owner(), parts=[(b"script", b"main", FLAGS), (b"mail", 2, b"b", letter("one")), (b"copy", 3, b"INBOX", 2, b"\\Seen")], numbers=(10_000, 4, 1, 1), active=b"main"))
for wrong_part in [(b"mail", 1, b"a", letter("x"), b""), (b"mail", 1, b"a", letter("x"), b"\\Seen", b""), (b"script", b"s", b"stop;", b"\\Seen", b"")]:
    new_store()
    refused("import --db F", BAD, account(owner=owner(), parts=[wrong_part], numbers=(10_000, 9, 1, 1)))
refused("import --db F", BAD, account(owner=owner(), parts=[(b"mail", 1, b"a", letter("x")), (b"copy", 2, b"b", 1, b"")], numbers=(10_000, 9, 1, 1)))

title("flags at their limit come back too; rows that are longer than a message may be are tried by tests/accounts.py")
comes_back(account(owner=owner(), numbers=(10_000, 3, 2, 1), parts=[(b"mail", 1, b"a", letter("one")), (b"copy", 2, b"b", 1, Long(b"f" * 12_899)),
                   (b"answer", 1, b"", b"bob@example.net", Long(b"x" * 3_000_000))]))

title("names of 64 octets, an account's own kinds of names, no active script")
for name in b"a" * 64, b"A.b_c-d@example.org", b"-", b".":
    text = account(owner=owner(name), parts=[(b"script", b"s", b"stop;")])
    new_store()
    imports(text, name)
    run(f"export --db F -- {name.decode()}", (), text)

title("an account is closed once its text is written, and `open` gives it back as it was")
new_store("bob")
imports(account(**FULL))
run("export --db F --and-close alice", (), account(**FULL))
said("users --db F", b"closed alice\nbob - bob@example.org\n")
refused("export --db F alice", NO_USER)
refused("export --db F --and-close alice", NO_USER)
refused(DELIVER, (75, "account is closed"), [letter("x")])
refused("import --db F", (65, "user has mail"), account(**FULL))
said("open --db F alice", b"opened alice\n")
exports(account(**FULL))
title("where a write fails a front of the text is written, and the account isn't closed")
new_store("alice")
size = len(b"".join(EMPTY))
head = b"".join(EMPTY).rindex(b"3:sum,")
calls = -(-head // 3) + -(-(size - head) // 3)
cut = lambda count: b"".join(EMPTY)[:min(3 * count, head)] if count <= -(-head // 3) else b"".join(EMPTY)[:head + 3 * (count - -(-head // 3))]
for count in sorted({0, 1, 2, 20, -(-head // 3), -(-head // 3) + 1, calls - 1, calls}):
    run("export --db F --and-close alice", (), [cut(count)], 75, "input or output failed", call=f"write {count}")
refused("export --db F --and-close alice", (75, "input or output failed"), call="full")
said("users --db F", b"alice - alice@example.org\n")
run("export --db F --and-close alice", (), EMPTY, call=f"write {calls + 1}")
said("users --db F", b"closed alice\n")
title("a store that another process has; one that can't be closed")
said("open --db F alice", b"opened alice\n")
row("busy", "0", "done")
refused("export --db F --and-close alice", (75, "busy"))
row("busy", "0", "done")
refused("import --db F", (75, "busy"), account(owner=owner(b"carol")))
row("busy", "0", "done")
refused("import --db F", BAD, [b"carol"])
row("run", "users --db F", "-", "75||sieved: busy%0A")
said("users --db F", b"alice - alice@example.org\n")
row("unclosed", "0", "done")
run("export --db F --and-close alice", (), EMPTY, fault="store failed")
said("users --db F", b"closed alice\n")
row("unclosed", "0", "done")
run("import --db F", EMPTY, [b"imported alice\n"], fault="store failed")
exports(EMPTY)
row("run", "import --wait --db F", column(account(owner=owner(b"carol"))), left(0, [b"imported carol\n"]))
said("users --db F", b"alice - alice@example.org\ncarol - alice@example.org\n")
refused("import --db F", (75, "input or output failed"), account(owner=owner(b"dave")), call="full")
exports(account(owner=owner(b"dave")), "dave")

title("of a closed account without mail the moments stay, and of two for one reply the later one")
REPLIES = [(b"reply", b"\x01h", b"bob@example.net", 5), (b"reply", b"\x01h", b"dave@example.net", 9), (b"reply", b"\x01k", b"bob@example.net", 7)]
OTHERS = [(b"reply", b"\x01h", b"bob@example.net", 6), (b"reply", b"\x01h", b"dave@example.net", 8), (b"reply", b"\x02", b"", 1)]
BOTH = [(b"reply", b"\x01h", b"bob@example.net", 6), (b"reply", b"\x01h", b"dave@example.net", 9), (b"reply", b"\x01k", b"bob@example.net", 7), (b"reply", b"\x02", b"", 1)]
new_store()
imports(account(owner=owner(), parts=REPLIES, numbers=(10_000, 5, 6, 7)))
run("export --db F --and-close alice", (), account(owner=owner(), parts=REPLIES, numbers=(10_000, 5, 6, 7)))
imports(account(owner=owner(address=b"new@example.org"), parts=OTHERS))
exports(account(owner=owner(address=b"new@example.org"), parts=BOTH))
said("remove --db F alice", b"removed alice\n")
imports(account(owner=owner(), parts=OTHERS, numbers=(10_000, 2, 3, 4)))
exports(account(owner=owner(), parts=BOTH, numbers=(10_000, 2, 3, 4)))
title("a text of a closed account: it comes in closed, and `open` opens it")
new_store()
imports(account(owner=owner(), numbers=(0, 1, 1, 1)))
said("users --db F", b"closed alice\n")
refused("export --db F alice", NO_USER)
said("open --db F alice", b"opened alice\n")
exports(EMPTY)

title("what is no text of an account: nothing, a text that is cut, changed, or goes on, another version, a sum of another text")
new_store()
whole = b"".join(account(**FULL))
body, end = whole[:whole.rindex(b"3:sum,")], whole[whole.rindex(b"3:sum,"):]
wrong = [b"", b"\n", b"alice", whole[:-1], body, whole[:1], whole[1:], whole + b"\n", whole + whole, whole[:-3] + bytes([whole[-3] ^ 1]) + b",\n", b"X" + whole[1:], body + b"".join(EMPTY)[b"".join(EMPTY).rindex(b"3:sum,"):],
         b"".join(account(version=b"2", **FULL)), b"".join(account(owner=owner(), active=b"main")), b"".join(account(owner=owner(), parts=[parts[5]])), end, letter("x")]
for text in wrong:
    refused("import --db F", BAD, [text])
title("what is no account of ours: a name, an address, a password, a script's name, text or number that can't be; all with the right sum")
for name in b"", b"a" * 65, b"a/b", b"a b", b"\xc3\xa9", b"a\x00":
    refused("import --db F", BAD, account(owner=owner(name)))
for address in b"", b"alice", b"a@b c", b"Alice <a@example.org>", b"a@example.org, b@example.org":
    refused("import --db F", BAD, account(owner=owner(address=address)))
for rounds in 1, 9_999, 10_001, 20_000, 2**32 - 1:
    refused("import --db F", BAD, account(owner=owner(), numbers=(rounds, 1, 1, 1)))
for salt in b"s" * 65, Long(b"s" * 1_000_000):
    refused("import --db F", BAD, account(owner=owner()[:2] + (salt, DIGEST)))
for rounds in 0, 10_000:
    refused("import --db F", BAD, account(owner=owner()[:3] + (b"",), parts=[(b"mail", 1, b"INBOX", letter("x"))], numbers=(rounds, 2, 1, 1)))
for script in [(b"", b"keep;"), (b"x" * 129, b"keep;"), (b"a\nb", b"keep;"), (b"\xff", b"keep;"), (b"m", b"frob;"), (b"m", b'fileinto "x";'), (b"m", Long(b" " * 262_145))]:
    refused("import --db F", BAD, account(owner=owner(), parts=[(b"script", *script)]))
refused("import --db F", BAD, account(owner=owner(), parts=[(b"script", b"s%02d" % n, b"keep;") for n in range(33)]))
run("users --db F")
title("at the limits: a salt of 64 octets, 32 scripts, one of 262,144 octets, a name of 128 characters, the greatest numbers, 300 of each part that may have so many")
for more in [dict(parts=[(b"script", b"s%02d" % n, b"keep;") for n in range(32)], active=b"s31"),
             dict(parts=[(b"script", b"m", Long(b" " * 262_144))]),
             dict(parts=[(b"script", b"x" * 128, b"")]),
             dict(numbers=(10_000, 2**63 - 1, 2**63 - 1, 2**63 - 1)),
             dict(owner=owner()[:2] + (b"s" * 64, b"d")),
             dict(parts=[(b"reply", b"k", b"s", 2**63 - 1), (b"mail", 2**63 - 2, b"a", b""), (b"redirect", 2**63 - 2, b"", b"", b""), (b"notice", 2**63 - 2, 2**63 - 1, b"")],
                  numbers=(10_000, 2**63 - 1, 2**63 - 1, 2**63 - 1)),
             dict(parts=[(b"reply", b"k%03d" % n, b"a@b", n) for n in range(300)]),
             dict(parts=[(b"mail", n + 1, b"f%d" % n, b"m%d" % n) for n in range(300)], numbers=(10_000, 301, 1, 1)),
             dict(parts=[(b"mail", n + 1, b"f", b"m%d" % n) for n in range(300)], numbers=(10_000, 301, 1, 1)),
             dict(parts=[(b"mail", 1, b"f0", b"m")] + [(b"copy", n + 1, b"f%d" % n, 1) for n in range(1, 300)], numbers=(10_000, 301, 1, 1)),
             dict(parts=[(b"redirect" if n % 2 else b"answer", n + 1, b"s", b"t%d" % n, b"m") for n in range(300)], numbers=(10_000, 1, 301, 1)),
             dict(parts=[(b"notice", n + 1, n, b"told") for n in range(300)], numbers=(10_000, 1, 1, 301))]:
    text = account(**{"owner": owner(), **more})
    new_store()
    imports(text)
    exports(text)
