#!/usr/bin/env python3
"""Writes crates/test_loops/data/mail-together.daemon: messages of several clients of LMTP that one act delivers.

What each client must get is the text of RFC 2033 and of docs/LMTP.md; how many messages one act delivers follows from the rule: in
the order of the connections, one of each connection and for each user, 64 at most, and 1 MiB of them unless it is one.
"""

HELLO = r"250-localhost\r\n250-PIPELINING\r\n250-SIZE 33552232\r\n250-8BITMIME\r\n250-SMTPUTF8\r\n250 ENHANCEDSTATUSCODES\r\n"
OK, KNOWN, DATA = r"250 2.1.0 Ok\r\n", r"250 2.1.5 Ok\r\n", r"354 End with a dot on a line of its own\r\n"
FILED = r"250 2.1.5 file INBOX\r\n"
lines = []


def say(line):
    lines.append(line)


def begin(title):
    if lines:
        say("----")
    say(f"# {title}")


def users(count):
    for n in range(1, count + 1):
        say(f"@ user u{n} u{n}@example.org secret")


def come(names):
    for name in names:
        say(f"{name} comes 1")
    for name in names:
        say(f'{name} has "220 localhost LMTP\\r\\n"')
    for name in names:
        say(f'{name} says "LHLO a\\r\\n"')
    for name in names:
        say(f'{name} has "{HELLO}"')


def announce(to):
    """Each client names its recipients, and is told to send the text."""
    for name, recipients in to.items():
        asked = "".join(rf"RCPT TO:<{it}>\r\n" for it in recipients)
        say(rf'{name} says "MAIL FROM:<carol@example.net>\r\n{asked}DATA\r\n"')
    for name, recipients in to.items():
        say(f'{name} has "{OK}{KNOWN * len(recipients)}{DATA}"')


def send(names, text=r"Hi\r\n"):
    """All texts end at once."""
    for name in names:
        say(rf'{name} says "{text}.\r\n"')


def told(names, answer=FILED):
    for name in names:
        say(f'{name} has "{answer}"')


def end(batches):
    say(f"@ batches {batches}".rstrip() if batches else "@ batches ")
    say("@ told all")


begin("Three clients, three users: one act. A fourth message comes later, and is none of it.")
users(3)
three = {"a": ["u1"], "b": ["u2"], "c": ["u3"]}
come(three)
announce(three)
say("@ batches ")
send(three)
told(three)
say("@ batches 3")
for n in (1, 2, 3):
    say(f"@ filed u{n} 1")
announce({"b": ["u2"]})
send("b")
told("b")
say("@ filed u2 2")
end("3 1")

begin("A user's second message waits for the next act; others don't wait for it.")
users(2)
to = {"a": ["u1"], "b": ["u1"], "c": ["u2"], "d": ["u1"]}
come(to)
announce(to)
send(to)
told(to)
say("@ filed u1 3")
say("@ filed u2 1")
end("2 1 1")

begin("One was removed behind RCPT, and one closed: each has its own answer, and the others are filed by the same act.")
users(4)
to = {"a": ["u1"], "b": ["u2"], "c": ["u3"], "d": ["u4"]}
come(to)
announce(to)
say("@ others removeaccount u2")
say("@ others closeaccount u3")
send(to)
told("a")
told("b", r"550 5.1.1 No such user\r\n")
told("c", r"451 4.2.1 Account is closed, try later\r\n")
told("d")
say("@ filed u1 1")
say("@ filed u4 1")
end("4")

begin("Memory is lacking for the act: nobody is answered by it, and each is filed by an act of its own.")
users(4)
come(three)
announce(three)
say("@ lacks")
send(three)
told(three)
say("@ batches parted/3")
for n in (1, 2, 3):
    say(f"@ filed u{n} 1")
# their next ones are apart from each other too, those of another one aren't
come(["d", "e"])
announce({"d": ["u4"], "e": ["u1"]})
send("de")
told("de")
end("parted/3 2")

begin("Memory suffices for the first act, and not for the second one: what the first delivered stays.")
users(70)
many = {f"c{n}": [f"u{n}"] for n in range(1, 71)}
come(many)
announce(many)
say("@ suffices")
say("@ lacks")
send(many)
told(many)
say("@ filed u1 1")
say("@ filed u70 1")
end("64 parted/6")

begin("The store is away: all wait, and go together once it is there. Where it is away for sixty seconds each is put off.")
users(3)
come(three)
announce(three)
say("@ away")
say("@ away")
send(three)
told(three, "")
say("@ batches away/3")
say("clock 5")
told(three, "")
say("clock 10")
told(three)
say("@ batches away/3 away/3 3")
announce(three)
say("@ away")
send(three)
told(three, "")
say("@ away")
say("clock 60009")
told(three, "")
say("clock 60014")
told(three, r"451 4.3.2 Store is busy, try later\r\n")
for n in (1, 2, 3):
    say(f"@ filed u{n} 1")
end("away/3 away/3 3 away/3 away/3")

begin("Clients that are gone behind their dot, while the store is away: their messages were whole, and are filed.")
users(3)
come(three)
announce(three)
say("@ away")
send(three)
say("b goes")
told(three, "")
say("c is lost")
say("pause")
say("clock 5")
told("ab")
say("b is closed")
say("c is closed")
say("@ filed u2 1")
say("@ filed u3 1")
end("away/3 3")

begin("Another process adds an account and delivers before the act: its message comes first, and none is lost.")
users(2)
come(["a", "b"])
announce({"a": ["u1"], "b": ["u2"]})
say("@ others deliver u1 1700000000 <eve@example.net> \"From: eve@example.net\\r\\n\\r\\nHi\\r\\n\"")
say("@ others adduser u3 u3@example.org secret")
send("ab")
told("ab")
say("@ filed u1 2")
say("@ filed u2 1")
end("2")

begin("Two recipients of each: the replies come in the order of RCPT, in two acts; to one who isn't there behind the text too.")
users(3)
to = {"a": ["u1", "u2"], "b": ["u2", "u3"]}
come(to)
announce(to)
send(to)
told(to, FILED * 2)
say("@ batches 2 2")
say("@ filed u2 2")
announce(to)
say("@ others closeaccount u1")
send(to)
told("a", r"451 4.2.1 Account is closed, try later\r\n" + FILED)
told("b", FILED * 2)
say("@ filed u2 4")
end("2 2 2 2")

begin("The same user twice among a message's recipients, under two addresses: two acts, and two messages.")
users(1)
come("a")
announce({"a": ["u1", "u1+x", "u1"]})
send("a")
told("a", FILED * 3)
say("@ filed u1 2")
end("1 1")

begin("The empty text.")
users(2)
come(["a", "b"])
announce({"a": ["u1"], "b": ["u2"]})
send("ab", "")
told("ab")
say("@ filed u1 1")
end("2")

begin("Seventy at once: 64 of them, and then six.")
users(70)
come(many)
announce(many)
send(many)
told(many)
say("@ filed u64 1")
say("@ filed u65 1")
end("64 6")

begin("300 deliveries, by a hundred clients at once.")
users(100)
crowd = {f"c{n}": [f"u{n}"] for n in range(1, 101)}
come(crowd)
for turn in range(3):
    announce(crowd)
    send(crowd)
    told(crowd)
for n in (1, 50, 100):
    say(f"@ filed u{n} 3")
end("64 36 64 36 64 36")

begin("1 MiB of them: two of 400,000 octets go together, the third one doesn't. One of more goes alone, and those behind it go later.")
users(4)
four = {"a": ["u1"], "b": ["u2"], "c": ["u3"], "d": ["u4"]}
come(four)
announce(four)
for name in "abc":
    say(rf'{name} says "\r\n"')
    say(rf'{name} says 40000 "12345678\r\n"')
say("pause")
send("abc", "")
send("d")
told(four)
say("@ batches 2 2")
announce(four)
say(r'b says "\r\n"')
say(r'b says 120000 "12345678\r\n"')
say("pause")
send("b", "")
send("acd")
told(four)
for n in (1, 2, 3, 4):
    say(f"@ filed u{n} 2")
end("2 2 1 1 2")

begin("Where each has an act of its own nothing goes together.")
users(3)
come(three)
say("@ apart")
announce(three)
send(three)
told(three)
for n in (1, 2, 3):
    say(f"@ filed u{n} 1")
end("")

print("\n".join(lines))
