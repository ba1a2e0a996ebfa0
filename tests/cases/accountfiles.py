#!/usr/bin/env python3
"""Writes crates/test_runs/data/accountfiles.cases: texts of accounts, and near misses of them.

Each text is spelled here, from README.md of crates/store_text, and its SHA-256 is that of Python's hashlib. What is wanted of a
right one is what it was spelled from; what is cut, changed, out of order or past a limit is the text of no account.

    python3 tests/cases/accountfiles.py > crates/test_runs/data/accountfiles.cases
"""
import hashlib, random
from accounttexts import LIMIT, NUMBERS, OWNER, Long, account, column, ended, line


def shown(field):
    field = str(field).encode() if isinstance(field, int) else field
    return b"#%d" % len(field) if len(field) > 64 else field


def listing(parts=(), owner=OWNER, numbers=NUMBERS, active=None):
    lines = [(b"account",) + owner + ((active,) if active is not None else ()), (b"numbers",) + numbers] + list(parts)
    return b"".join(b" ".join(shown(field) for field in fields) + b";" for fields in lines) + b"again"


def row(pieces, wanted):
    print(column(pieces), column([wanted]), sep="\t")


def right(title=None, **account_of):
    if title:
        print(f"\n# {title}")
    row(account(**account_of), listing(**account_of))


def wrong(pieces, title=None):
    if title:
        print(f"\n# {title}")
    row(pieces, b"none")


SCRIPT = (b"script", b"main", b"keep;\r\n")
REPLY = (b"reply", b"key", b"bob@example.net", 1_700_000_000)
MAIL = (b"mail", 1, b"a", b"Subject: x\r\n\r\nhi\r\n")
COPY = (b"copy", 2, b"INBOX", 1)
REDIRECT = (b"redirect", 1, b"bob@example.net", b"carol@example.com", b"Subject: x\r\n\r\nhi\r\n")
ANSWER = (b"answer", 2, b"", b"bob@example.net", b"Subject: away\r\n\r\n")
NOTICE = (b"notice", 1, 1_700_000_000, b"line 1: told")
ALL = [SCRIPT, REPLY, MAIL, COPY, REDIRECT, ANSWER, NOTICE]
FULL = dict(parts=ALL, numbers=(10000, 3, 3, 2), active=b"main")

print("# Written by tests/cases/accountfiles.py: the text of an account; what it says, a part behind the other, or none. A field of more than 64")
print("# octets is told by its length; `again` says that the account's text, written again, is the same. SHA-256 by Python's hashlib.")

right("An account without anything, one with everything", )
right(**FULL)
right("Closed, with names and texts that are empty or hold any octets", numbers=(0, 1, 1, 1))
right(owner=(b"", b"", b"", b""))
right(owner=(b"a,5:b\n", b"\x00\xff", bytes(range(33, 60)), bytes(range(128, 160))), parts=[(b"script", b"", b""), (b"script", b"\x00", b"7:script,\n")], active=b"")
right("Each part alone", parts=[SCRIPT])
right(parts=[REPLY])
right(parts=[MAIL], numbers=(1, 2, 1, 1))
right(parts=[REDIRECT], numbers=(1, 1, 2, 1))
right(parts=[ANSWER], numbers=(1, 1, 3, 1))
right(parts=[NOTICE], numbers=(1, 1, 1, 2))
right("In order: names and senders by their octets, the shorter first; numbers with gaps; a message with several copies",
      parts=[(b"script", n, b"") for n in (b"", b"A", b"B", b"a", b"aa", b"b", b"\xc3\xa9")])
right(parts=[(b"reply", b"", b"a", 2), (b"reply", b"", b"b", 1), (b"reply", b"k", b"", 0), (b"reply", b"k", b"a", 0), (b"reply", b"kk", b"", 0)])
right(parts=[(b"mail", 2, b"b", b"one"), (b"copy", 3, b"a", 2), (b"copy", 7, b"b", 2), (b"mail", 8, b"a", b"one"), (b"copy", 9, b"a", 8)], numbers=(1, 10, 1, 1))
right(parts=[(b"notice", 2, 5, b"late"), (b"notice", 4, 1, b"early")], numbers=(1, 1, 1, 9))
right("The flags of copies: a field more, and none where there are none; any octets", parts=[MAIL + (b"\\Seen",), COPY], numbers=(1, 3, 1, 1))
right(parts=[MAIL, COPY + (b"\\Flagged $Label1",)], numbers=(1, 3, 1, 1))
right(parts=[MAIL + (b"\\Seen",), COPY + (b"\\Seen \\Deleted",), (b"copy", 3, b"b", 1)], numbers=(1, 4, 1, 1))
right(parts=[MAIL + (b"a,5:b\n\x00\xff",), COPY + (b" ",)], numbers=(1, 3, 1, 1))
right(parts=[MAIL + (Long(b"x" * (LIMIT + 1)),)], numbers=(1, 2, 1, 1))
right("Limits: rounds, counters, numbers, moments, 300 of each part", numbers=(2**32 - 1, 2**63 - 1, 2**63 - 1, 2**63 - 1))
right(parts=[(b"reply", b"k", b"s", 2**63 - 1), (b"mail", 2**63 - 2, b"a", b""), (b"redirect", 2**63 - 2, b"", b"", b""), (b"notice", 2**63 - 2, 2**63 - 1, b"")],
      numbers=(1, 2**63 - 1, 2**63 - 1, 2**63 - 1))
right(parts=[(b"script", b"s%03d" % n, b"stop;") for n in range(300)], active=b"s299")
right(parts=[(b"reply", b"k%03d" % n, b"a@b", n) for n in range(300)])
right(parts=[(b"mail", n + 1, b"f%d" % n, b"m%d" % n) for n in range(300)], numbers=(1, 301, 1, 1))
right(parts=[(b"mail", 1, b"f0", b"m")] + [(b"copy", n + 1, b"f%d" % n, 1) for n in range(1, 300)], numbers=(1, 301, 1, 1))
right(parts=[(b"redirect" if n % 2 else b"answer", n + 1, b"s", b"t%d" % n, b"m") for n in range(300)], numbers=(1, 1, 301, 1))
right(parts=[(b"notice", n + 1, n, b"told") for n in range(300)], numbers=(1, 1, 1, 301))
print("\n# A field has any length: one octet more than a message may have")
for part in [(b"mail", 1, b"a", Long(b"x" * (LIMIT + 1)))]:
    right(parts=[part], numbers=(1, 2, 2, 1))

print("\n# Past a limit")
for numbers in [(2**32, 1, 1, 1), (1, 2**63, 1, 1), (1, 1, 2**63, 1), (1, 1, 1, 2**63), (1, 0, 1, 1), (1, 1, 0, 1), (1, 1, 1, 0), (1, 2**64, 1, 1)]:
    wrong(account(numbers=numbers))
for part, numbers in [((b"reply", b"k", b"s", 2**63), NUMBERS), (MAIL, NUMBERS), ((b"mail", 0, b"a", b""), (1, 2, 1, 1)), (REDIRECT, NUMBERS), (NOTICE, NUMBERS),
                      ((b"redirect", 0, b"", b"", b""), (1, 1, 2, 1)), ((b"notice", 0, 0, b""), (1, 1, 1, 2)), ((b"notice", 1, 2**63, b""), (1, 1, 1, 2))]:
    wrong(account(parts=[part], numbers=numbers))
wrong(account(parts=[MAIL, COPY], numbers=(1, 2, 1, 1)))

print("\n# Out of order, or twice")
for n in range(len(ALL)):
    swapped = ALL[:n] + ALL[n + 1:n + 2] + ALL[n:n + 1] + ALL[n + 2:]
    if swapped != ALL:
        wrong(account(parts=swapped, numbers=FULL["numbers"], active=b"main"))
    wrong(account(parts=ALL[:n + 1] + ALL[n:], numbers=FULL["numbers"], active=b"main"))
for parts in [[(b"script", b"b", b""), (b"script", b"a", b"")], [(b"reply", b"k", b"b", 1), (b"reply", b"k", b"a", 1)], [(b"reply", b"l", b"a", 1), (b"reply", b"k", b"b", 1)],
              [(b"mail", 2, b"a", b""), (b"mail", 1, b"a", b"")], [(b"mail", 1, b"a", b""), (b"mail", 1, b"b", b"")], [COPY], [SCRIPT, COPY],
              [(b"mail", 1, b"a", b""), (b"mail", 2, b"a", b""), (b"copy", 3, b"b", 1)], [(b"mail", 1, b"a", b""), (b"copy", 2, b"b", 2)],
              [(b"mail", 1, b"a", b""), (b"copy", 1, b"b", 1)], [(b"redirect", 2, b"", b"", b""), (b"answer", 1, b"", b"", b"")],
              [(b"notice", 2, 1, b""), (b"notice", 1, 2, b"")]]:
    wrong(account(parts=parts, numbers=(1, 9, 9, 9)))
wrong(account(parts=[SCRIPT], active=b"mai"))
wrong(account(active=b"main"))

print("\n# Another version, other words, fields that lack or are too many; all with the right sum")
for version in [b"0", b"2", b"10", b"", b"01", b"1 "]:
    wrong(account(version=version))
HEAD = line(b"sieved-account", b"1"), line(b"account", *OWNER), line(b"numbers", *NUMBERS)
wrong(ended([]))
wrong(ended(HEAD[0]))
wrong(ended(HEAD[0] + HEAD[1]))
wrong(ended(HEAD[1] + HEAD[2]))
wrong(ended(HEAD[0] + HEAD[2] + HEAD[1]))
wrong(ended(HEAD[0] + line(b"account", *OWNER[:3]) + HEAD[2]))
wrong(ended(HEAD[0] + line(b"account", *OWNER, b"", b"") + HEAD[2]))
wrong(ended(HEAD[0] + HEAD[1] + line(b"numbers", 1, 1, 1)))
wrong(ended(HEAD[0] + HEAD[1] + line(b"numbers", *NUMBERS, 1)))
wrong(ended(line(b"sieved-account", b"1", b"") + HEAD[1] + HEAD[2]))
wrong(ended(line(b"Sieved-account", b"1") + HEAD[1] + HEAD[2]))
for part in [(b"script", b"a"), (b"script", b"a", b"", b""), (b"Script", b"a", b""), (b"mail", 1, b"a"), (b"copy", 1, b"a", b"x"), (b"reply", b"k", b"s"), (b"letter", 1, b"", b"", b""),
             (b"redirect", 1, b"", b""), (b"redirect", 1, b"", b"", b"", b""), (b"notice", 1, 1), (b"",), (b"script",), (b"sum", b"0" * 64), ()]:
    wrong(account(parts=[part], numbers=(1, 9, 9, 9)))
wrong(account(parts=[MAIL + (b"",)], numbers=(1, 3, 1, 1)), "Flags whose field is empty, or that other parts have; two fields of flags")
wrong(account(parts=[MAIL, COPY + (b"",)], numbers=(1, 3, 1, 1)))
wrong(account(parts=[MAIL + (b"\\Seen", b"\\Seen")], numbers=(1, 3, 1, 1)))
wrong(account(parts=[MAIL, COPY + (b"\\Seen", b"")], numbers=(1, 3, 1, 1)))
for part in SCRIPT, REPLY, REDIRECT, ANSWER, NOTICE:
    wrong(account(parts=[part + (b"\\Seen",)], numbers=(1, 9, 9, 9)))
wrong(account(parts=[(b"mail", 1, b"a", b"m", b"\\Seen"), (b"copy", 2, b"b", b"x", b"\\Seen")], numbers=(1, 9, 9, 9)))

print("\n# Numbers in another form; all with the right sum")
for number in [b"01", b"+1", b"-1", b"", b" 1", b"1 ", b"0x1", b"1.0", b"\xd9\xa1", b"00"]:
    wrong(account(numbers=(1, number, 1, 1)))
    wrong(account(parts=[(b"reply", b"k", b"s", number)]))
for front in [b"05:", b"+5:", b"5;", b"5 :", b":", b"6:", b"4:", b"33554433:", b"9223372036854775807:", b"9223372036854775808:", b"9223372036854775813:", b"18446744073709551621:", b"-0:"]:
    wrong(ended(HEAD[0] + [b"7:account,", front, b"alice,", b"1:a,1:s,1:d,\n"] + HEAD[2]))
wrong(ended(HEAD[0] + [b"7:account,5:alice;1:a,1:s,1:d,\n"] + HEAD[2]))
wrong(ended(HEAD[0] + [b"7:account,5:alice,1:a,1:s,1:d,\r\n"] + HEAD[2]))
wrong(ended(HEAD[0] + [b"7:account,5:alice, 1:a,1:s,1:d,\n"] + HEAD[2]))
wrong(ended(HEAD[0] + [b"\n"] + HEAD[1] + HEAD[2]))

text = b"".join(account(**FULL))
draw = random.Random(41)

print("\n# Cut: at each of 30 places, the first and the last among them, and of nothing but the sum")
for at in sorted({0, 1, len(text) - 1, len(text) - 2, len(text) - 70} | set(draw.sample(range(2, len(text) - 3), 27))):
    wrong([text[:at]])
wrong([text[text.rindex(b"3:sum,"):]])

print("\n# Changed: one octet at each of 30 places, one more and one fewer; the sum in capitals, of another text, cut")
for at in sorted({0, len(text) - 1, len(text) - 3} | set(draw.sample(range(1, len(text) - 3), 28))):
    wrong([text[:at] + bytes([text[at] ^ draw.choice([1, 2, 4, 8, 16, 32, 64, 128])]) + text[at + 1:]])
for at in draw.sample(range(len(text)), 5):
    wrong([text[:at] + b"x" + text[at:]])
    wrong([text[:at] + text[at + 1:]])
body, end = text[:text.rindex(b"3:sum,")], text[text.rindex(b"3:sum,"):]
wrong([body + end.upper().replace(b"3:SUM,", b"3:sum,")])
wrong([body + b"".join(line(b"sum", hashlib.sha256(body[:-1]).hexdigest().encode()))])
wrong([body + b"".join(line(b"sum", hashlib.sha256(body).hexdigest().encode()[:-1]))])
wrong([body + b"".join(line(b"sum", hashlib.sha256(body).digest()))])
wrong([body + b"".join(line(b"sum", b""))])
wrong([body + b"".join(line(b"sum"))])
wrong([body + b"".join(line(b"sum", hashlib.sha256(body).hexdigest().encode(), b""))])

print("\n# Octets behind the end; twice")
for more in [b"\n", b"\x00", b" ", b"\r\n", b"3:sum,0:,\n", text]:
    wrong([text + more])
