#!/usr/bin/env python3
"""Tries `sieved daemon --lmtp`: the dialogues of the cases, recipients, scripts, room for many texts, sockets, a store that is away,
and killed.

  tests/lmtp.py [--quick] [--sieved SIEVED] [TRIAL ..]     SIEVED: the program, crates/sieved/out/sieved where none is named

Prints a line for each trial, a last one that counts them, and ends with 1 where one failed. `tests/run` runs it, with --quick, which
does a tenth of what is done many times. It needs python3 alone.
"""
import contextlib, fcntl, os, random, re, socket, sqlite3, stat, subprocess, sys, threading, time
import trials
from hostile import memory
from managesieve import HERE, SIEVED, Store, connect, end

CASES = f"{HERE}/../crates/test_loops/data/lmtp.cases"
PROGRAM = [SIEVED]
PART = re.compile(r"%\{([^*]*)\*(\d+)\}|%([0-9A-F]{2})")
# Rows in which the cases' host lacks something, or says of a recipient what a store doesn't, or has names that no account has.
LEFT = re.compile(r"@drop|@room|(busy|broken|full|gone|closed|from|bad|loop|crowded|late|faulty|lines)@x|a\*1022|J%C3%B6rg@x>%0D%0A\t250 2.1.5")
STATES = {
    "greeted": [],
    "ready": [b"LHLO c\r\n"],
    "opened": [b"LHLO c\r\n", b"MAIL FROM:<s@x>\r\n"],
    "taken": [b"LHLO c\r\n", b"MAIL FROM:<s@x>\r\n", b"RCPT TO:<r@x>\r\n"],
    "sending": [b"LHLO c\r\n", b"MAIL FROM:<s@x>\r\n", b"RCPT TO:<r@x>\r\n", b"DATA\r\n"],
}


TOO_MUCH = b'BYE (TRYLATER) "Too much to hold."\r\n'


class Peer:
    """A client of LMTP."""

    def __init__(self, where, greeted=True):
        family = socket.AF_UNIX if isinstance(where, str) else socket.AF_INET
        self.sock = socket.socket(family, socket.SOCK_STREAM)
        self.sock.settimeout(90)
        self.sock.connect(where if family == socket.AF_UNIX else ("127.0.0.1", where))
        if family == socket.AF_INET:
            self.sock.setsockopt(socket.IPPROTO_TCP, socket.TCP_NODELAY, 1)
        self.lines = self.sock.makefile("rb")
        if greeted:
            self.reply()

    def reply(self):
        """A reply's last line; the others are before it."""
        while True:
            line = self.lines.readline()
            if line[3:4] != b"-":
                return line

    def say(self, octets, replies=1):
        self.sock.sendall(octets)
        return [self.reply() for _ in range(replies)]

    def open(self, *recipients, sender=b"s@x"):
        """The replies to the recipients, in a transaction of its own."""
        self.say(b"RSET\r\n")
        self.say(b"MAIL FROM:<%s>\r\n" % sender)
        return [self.say(b"RCPT TO:<%s>\r\n" % recipient)[0] for recipient in recipients]

    def deliver(self, text, *recipients, sender=b"s@x"):
        taken = [reply for reply in self.open(*recipients, sender=sender) if reply.startswith(b"250")]
        self.say(b"DATA\r\n")
        return self.say(text + b".\r\n", len(taken))

    def close(self):
        self.lines.close()
        self.sock.close()


def new_store(*users):
    return Store(users, PROGRAM[0])


def daemon(store, *words):
    """The daemon's process, and where it listens, a port or a path for each listener."""
    server = subprocess.Popen(store.words("daemon", *words), stdin=subprocess.DEVNULL, stdout=subprocess.PIPE, stderr=subprocess.PIPE)
    places = []
    for word in words:
        if word in ("--managesieve", "--lmtp"):
            told = server.stdout.readline().decode()
            if not told.startswith("listening on "):
                raise Exception(f"daemon: {server.wait()}: {server.stderr.read().decode()}")
            place = told[13:].rstrip("\n")
            places.append(int(place.rsplit(":", 1)[1]) if ":" in place else place)
    return server, *places


def greet(peer):
    return peer.say(b"LHLO c\r\n")


def count_of(store, user):
    """How many messages a user's INBOX has."""
    counts = dict(line.rsplit(" ", 1) for line in store.run("folders", "--wait", user).decode().splitlines())
    return int(counts.get("INBOX", 0))


def inbox(store, user, start=0):
    """The messages of a user's INBOX, but for so many first ones."""
    return [store.run("show", "--wait", user, "INBOX", str(at + 1)) for at in range(start, count_of(store, user))]


def once(text):
    return re.sub(r"%([0-9A-F]{2})", lambda found: chr(int(found[1], 16)), text)


def octets_of(text):
    """The octets that stand in a column of a case; `%#` within a repeated part is its number, from 1."""
    if text == "-":
        return b""
    def spell(found):
        if found[2]:
            return "".join(once(found[1].replace("%#", str(at + 1))) for at in range(int(found[2])))
        return chr(int(found[3], 16))
    return PART.sub(spell, text).encode("latin-1")


def rows():
    with open(CASES, encoding="utf-8") as file:
        lines = [line.rstrip("\n") for line in file if line.strip() and not line.startswith("#")]
    return [line.split("\t") for line in lines if not LEFT.search(line)]


def play(port, state, pieces, length):
    """What a client is answered, behind what brought it there: so many octets, and what comes when it goes."""
    peer = Peer(port)
    for line in STATES[state]:
        peer.say(line)
    for piece in pieces:
        peer.sock.sendall(piece)
        time.sleep(0.002)
    got = peer.lines.read(length)
    peer.sock.shutdown(socket.SHUT_WR)
    got += peer.lines.read()
    peer.close()
    return got


def dialogues():
    """Each dialogue of the cases that a store can have: what is answered, and what is delivered."""
    found = rows()
    thousand = [row for row in found if "*100" in "\t".join(row[1:])]
    found = [row for row in found if row not in thousand and row[0] in STATES]
    found.sort(key=lambda row: "*1973660" in "\t".join(row))
    store = new_store("r", "postmaster")
    server, port = daemon(store, "--lmtp", "0", "--host", "host.example")
    delivered = 0
    for row in found:
        state, pieces, wanted = row[0], [octets_of(piece) for piece in row[1:-1]], octets_of(row[-1])
        wanted = re.sub(rb"(greeted|ready|opened|sending|over)$", b"", wanted)
        texts = re.findall(rb"\{(\S+) (\S+) ([^}]*)\}", wanted)
        replies = re.sub(rb"\{[^}]*\}", b"", wanted)
        before = count_of(store, "r")
        got = play(port, state, pieces, len(replies))
        assert got == replies, (row, got[-300:])
        now = inbox(store, "r", before)
        once = list(dict.fromkeys(texts))
        assert len(now) == len(once), (row, len(now), before)
        for (sender, recipient, text), message in zip(once, now):
            head = b"Return-Path: <%s>\r\nDelivered-To: %s\r\n" % (sender, recipient)
            assert message.startswith(head), (row, message[:200])
            assert text == b"long" or message == head + text, (row, message[:200])
            delivered += 1
    end(server)
    assert len(found) > 80, len(found)
    return f"{len(found)} dialogues of the cases, answered as they say; {delivered} deliveries, octet by octet"


def names():
    """Under which names an account is looked for."""
    store = new_store("alice", "Bob", "postmaster")
    store.run("adduser", "--salt", os.urandom(16).hex(), "carol@example.net", "carol@example.net", data=b"secret\n")
    server, port = daemon(store, "--lmtp", "0")
    peer = Peer(port)
    greet(peer)
    told = {name: peer.open(name)[0][:3] for name in (b"alice@x", b"ALICE@x", b"alice+lists@x", b"Alice+Lists@x", b"Bob@x", b"bob@x", b"carol@example.net", b"Postmaster", b'"alice"@x')}
    end(server)
    assert told == {b"alice@x": b"250", b"ALICE@x": b"250", b"alice+lists@x": b"250", b"Alice+Lists@x": b"250", b"Bob@x": b"250", b"bob@x": b"550",
                    b"carol@example.net": b"550", b"Postmaster": b"250", b'"alice"@x': b"250"}, told
    server, port = daemon(store, "--lmtp", "0", "--names", "whole")
    peer = Peer(port)
    greet(peer)
    told = {name: peer.open(name)[0][:3] for name in (b"alice@x", b"carol@example.net", b"CAROL+x@Example.net")}
    end(server)
    assert told == {b"alice@x": b"550", b"carol@example.net": b"250", b"CAROL+x@Example.net": b"250"}, told
    return "nine addresses by local part, three whole ones"


def scripts():
    """A script that comes by ManageSieve beside deliveries, and what the replies tell."""
    store = new_store("alice", "bob")
    server, sieve, port = daemon(store, "--managesieve", "0", "--lmtp", "0")
    client = connect(sieve)
    client.log_in("alice")
    peer = Peer(port)
    greet(peer)
    text = b"From: bob@example.net\r\nTo: alice@example.org\r\nSubject: [list] Lunch\r\n\r\nHi\r\n"
    assert peer.deliver(text, b"alice@x") == [b"250 2.1.5 file INBOX\r\n"]
    assert client.put(b"main", b'require ["fileinto", "vacation"];\r\nvacation "Away";\r\nif header :contains "subject" "[list]" { fileinto "lists"; keep; }\r\n').startswith(b"OK")
    assert client.ask(b'SETACTIVE "main"')[-1].startswith(b"OK")
    told = peer.deliver(text, b"alice@example.org", b"nobody@x", b"bob@x", sender=b"bob@example.net")
    assert told == [b"250 2.1.5 file lists, file INBOX, vacation sent\r\n", b"250 2.1.5 file INBOX\r\n"], told
    told = peer.deliver(text, b"alice@example.org", sender=b"bob@example.net")
    assert told[0].startswith(b"250 2.1.5 file lists, file INBOX, vacation quiet"), told
    end(server)
    assert len(inbox(store, "alice")) == 3 and len(inbox(store, "bob")) == 1
    return "a script that is put and set works for the next message; replies tell what was done, one a recipient"


def default():
    """A host's default script, for accounts without an active one alone, and a daemon that doesn't begin with a wrong one."""
    store = new_store("alice", "bob")
    script = f"{store.folder.name}/default.sieve"
    open(script, "w").write('require ["fileinto", "vacation"];\nfileinto "Junk";\nvacation "Away";\n')
    words = "--managesieve", "0", "--lmtp", "0", "--default", script, "--zone", "CET-1CEST,M3.5.0,M10.5.0/3"
    server, sieve, port = daemon(store, *words)
    client = connect(sieve)
    client.log_in("alice")
    peer = Peer(port)
    greet(peer)
    text = b"From: bob@example.net\r\nTo: alice@example.org, bob@example.org\r\nSubject: Lunch\r\n\r\nHi\r\n"
    told = peer.deliver(text, b"alice@example.org", b"bob@example.org", sender=b"bob@example.net")
    assert told == [b"250 2.1.5 file Junk, vacation sent\r\n"] * 2, told
    assert client.put(b"main", b"keep;\r\n").startswith(b"OK")
    told = peer.deliver(text, b"alice@example.org", sender=b"bob@example.net")
    assert told == [b"250 2.1.5 file Junk, vacation quiet 9\r\n"], told
    assert client.ask(b'SETACTIVE "main"')[-1].startswith(b"OK")
    told = peer.deliver(text, b"alice@example.org", b"bob@example.org", sender=b"dana@example.net")
    assert told == [b"250 2.1.5 file INBOX\r\n", b"250 2.1.5 file Junk, vacation sent\r\n"], told
    end(server)
    return "filed and answered by it without an active script, and with one that isn't active; never with an active one"


def circles():
    """A message that was delivered to the recipient before, and Return-Path lines that it came with."""
    store = new_store("alice")
    server, port = daemon(store, "--lmtp", "0")
    peer = Peer(port)
    greet(peer)
    assert peer.deliver(b"Delivered-To: ALICE@x\r\n\r\nHi\r\n", b"alice@x")[0].startswith(b"554 5.4.6")
    assert peer.deliver(b"Delivered-To: carol@x\r\n\r\nHi\r\n", b"alice@x")[0].startswith(b"250")
    assert peer.deliver(b"Return-Path: <evil@x>\r\nReturn-Path: <a@b>\r\nSubject: x\r\nReturn-Path: <in@x>\r\n\r\nHi\r\n", b"alice@x", sender=b"")[0].startswith(b"250")
    end(server)
    first, second = inbox(store, "alice")
    assert second == b"Return-Path: <>\r\nDelivered-To: alice@x\r\nSubject: x\r\nReturn-Path: <in@x>\r\n\r\nHi\r\n", second
    return "554 for what had its Delivered-To; Return-Path lines in front are replaced"


def thousand():
    """A thousand recipients, each served by a step of its own, and another client meanwhile."""
    users = [f"r{at + 1}" for at in range(trials.some(1_000))]
    store = new_store(*users)
    server, port = daemon(store, "--lmtp", "0")
    peer, other = Peer(port), Peer(port)
    greet(peer), greet(other)
    assert all(reply.startswith(b"250") for reply in peer.open(*[f"{user}@x".encode() for user in users]))
    peer.say(b"DATA\r\n")
    peer.sock.sendall(b"Subject: x\r\n\r\n" + b"x" * 10_000 + b"\r\n.\r\n")
    slowest = 0.0
    for _ in range(20):
        began = time.perf_counter()
        other.say(b"NOOP\r\n")
        slowest = max(slowest, time.perf_counter() - began)
    assert [peer.reply() for _ in users] == [b"250 2.1.5 file INBOX\r\n"] * len(users)
    end(server)
    assert all(len(inbox(store, user)) == 1 for user in users[::100])
    return f"{len(users)} recipients, a reply each; another client's NOOP took {slowest * 1000:.0f} ms at most"


def hurried(port, user, text=b"Subject: x\r\n\r\nx\r\n"):
    """A mail server's session: greeting, LHLO, one message, QUIT. True where it was delivered, else what came, and for how long it waited."""
    told, began = [], time.time()
    try:
        peer = Peer(port, greeted=False)
        told = [peer.reply()]
        for line in b"LHLO c\r\n", b"MAIL FROM:<s@x>\r\n", b"RCPT TO:<%s@x>\r\n" % user, b"DATA\r\n", text + b".\r\n", b"QUIT\r\n":
            told += peer.say(line)
        peer.close()
    except OSError as error:
        return [*told, repr(error), time.time() - began]
    return [reply[:3] for reply in told] == [b"220", b"250", b"250", b"250", b"354", b"250", b"221"] or told


def at_once(count, call):
    results = [None] * count

    def one(number):
        results[number] = call(number)
    threads = [threading.Thread(target=one, args=(number,)) for number in range(count)]
    for thread in threads:
        thread.start()
    for thread in threads:
        thread.join()
    return results


def knocks():
    """300 connections that come at once and say nothing, and one behind them, whose message is delivered within a second."""
    store = new_store("alice")
    server, port = daemon(store, "--lmtp", "0", "--quiet")
    times = []
    for _ in range(3):
        silent = [socket.create_connection(("127.0.0.1", port)) for _ in range(300)]
        began = time.time()
        told = hurried(port, b"alice")
        times.append(time.time() - began)
        assert told is True, told
        for sock in silent:
            sock.close()
    end(server)
    assert max(times) < 1 and count_of(store, "alice") == 3, times
    return f"behind 300 silent connections that came at once a message is delivered within {max(times) * 1000:.0f} ms"


def persistent(port, user, again):
    """The same, where one that is told 421 is tried again, as a mail server does."""
    while True:
        told = hurried(port, user)
        if told is True or told[1:2] != [b"421 4.4.2 Idle\r\n"]:
            return told
        again.append(told)


def thirty():
    """Thirty mail servers at once where there are twenty places: each has each of its messages delivered once. One that doesn't say LHLO
    within 50 ms, as on a busy machine, may be told 421 and tries again."""
    store = new_store(*[f"u{number}" for number in range(30)])
    server, port = daemon(store, "--lmtp", "0", "--quiet")
    again, each = [], trials.some(50)
    began = time.time()
    results = at_once(30, lambda number: [persistent(port, b"u%d" % number, again) for _ in range(each)])
    took = time.time() - began
    end(server)
    wrong = [told for told in sum(results, []) if told is not True]
    assert not wrong, (len(wrong), wrong[:3])
    assert all(count_of(store, f"u{number}") == each for number in range(30))
    assert len(again) * 5 <= 30 * each, len(again)
    return f"30 mail servers, {each} sessions each: {took:.1f} s, {len(again)} are told to come again, and each message is delivered once"


def flood():
    """A mail server among connections that come again and again and say nothing, or LHLO, or MAIL, or an octet at a time, or NOOP without end:
    each of its messages is delivered by a session of its own."""
    store = new_store("alice")
    server, port = daemon(store, "--lmtp", "0", "--quiet")
    over = threading.Event()
    openings = b"", b"", b"LHLO c\r\n", b"LHLO c\r\nMAIL FROM:<s@x>\r\n", b"LHLO c\r\nMAIL FROM:<s@x>\r\nRCPT TO:<nobody@x>\r\n"

    def beset(number):
        while not over.is_set():
            try:
                sock = socket.create_connection(("127.0.0.1", port), timeout=60)
                sock.sendall(openings[number % len(openings)])
                sock.settimeout(0.2)
                while not over.is_set():
                    try:
                        if not sock.recv(4096):
                            break
                    except socket.timeout:
                        pass
                    sock.sendall([b"", b"N", b"NOOP\r\n"][number % 3])
                sock.close()
            except OSError:
                pass
    threads = [threading.Thread(target=beset, args=(number,), daemon=True) for number in range(60)]
    for thread in threads:
        thread.start()
    time.sleep(2)
    times, tried = [], max(trials.some(20), 5)
    for _ in range(tried):
        began = time.time()
        told = hurried(port, b"alice")
        times.append(time.time() - began)
        assert told is True, told
    over.set()
    for thread in threads:
        thread.join()
    end(server)
    assert count_of(store, "alice") == tried and max(times) < 20, times
    return f"{tried} messages beside 60 connections that are silent or talk by halves: each is delivered, within {max(times):.1f} s"


def send_on(peer, part):
    """More of a text, where the connection hasn't ended."""
    try:
        peer.sock.sendall(part)
    except OSError:
        pass


def room():
    """All that 70 clients send at once, who end nothing: together they hold 64 MiB, those that aren't logged in 8, and who passes that is
    told so. Each of 20 peers is told what became of its text, and who is logged in goes on."""
    store = new_store("alice")
    size, mib = max(trials.some(30), 5) << 20, 64
    server, sieve, port = daemon(store, "--managesieve", "0", "--lmtp", "0")
    before = memory(server, "VmHWM")
    user = connect(sieve)
    user.log_in("alice")
    peers = [Peer(port) for _ in range(20)]
    for peer in peers:
        greet(peer)
        assert peer.open(b"alice@x") == [b"250 2.1.5 Ok\r\n"] and peer.say(b"DATA\r\n")[0].startswith(b"354")
        peer.sock.sendall(b"Subject: large\r\n\r\n")
    part = (b"x" * 998 + b"\r\n") * 1_000
    for _ in range(size // len(part)):
        for peer in peers:
            send_on(peer, part)
    clients, over = [connect(sieve) for _ in range(49)], 0
    literal = b'PUTSCRIPT {1048576+}\r\n' + b"y" * 1_048_576 + b" {1048576+}\r\n" + b"y" * 1_048_000
    for client in clients:
        try:
            client.sock.sendall(literal)
        except OSError:
            pass
    # What they sent is read once this is answered: the daemon reads of each in turn.
    time.sleep(1)
    most = memory(server, "VmHWM")
    noop = user.ask(b"NOOP")[-1]
    for client in clients:
        client.sock.settimeout(0.1)
        try:
            over += client.sock.recv(100) == TOO_MUCH
        except OSError:
            pass
    told = [peer.say(b".\r\n")[0] for peer in peers]
    filed, refused = told.count(b"250 2.1.5 file INBOX\r\n"), told.count(b"452 4.3.1 Out of memory, try later\r\n")
    for one in [*clients, *peers]:
        one.close()
    time.sleep(1)
    peer = Peer(port)
    greet(peer)
    again = peer.say(b"MAIL FROM:<s@x> SIZE=33000000\r\n")[0]
    delivered = memory(server, "VmHWM")
    end(server)
    assert filed + refused == 20 and filed >= 1 and refused >= 1, told
    assert noop == b'OK "Done."\r\n' and over >= 40, (noop, over)
    assert count_of(store, "alice") == filed
    assert again == b"250 2.1.0 Ok\r\n", again
    assert most - before < 3 * mib * 1024, (before, most)
    return f"20 texts of {size >> 20} MiB and 49 scripts of 2 MiB at once, of which {mib} MiB may be held: {filed} filed, {refused} told 452, {over} scripts told BYE; {most} kB at most, {before} before, {delivered} with the deliveries"


def little_room():
    """With --memory 1 a text of 2 MiB has no room, and one of half a MiB has; a SIZE of 2 MiB is refused before it."""
    store = new_store("alice")
    server, port = daemon(store, "--lmtp", "0", "--memory", "1")
    peer = Peer(port)
    greet(peer)
    for lines, told in (2_000, b"452 4.3.1 Out of memory, try later\r\n"), (500, b"250 2.1.5 file INBOX\r\n"):
        assert peer.open(b"alice@x") == [b"250 2.1.5 Ok\r\n"] and peer.say(b"DATA\r\n")[0].startswith(b"354")
        peer.sock.sendall((b"x" * 998 + b"\r\n") * lines)
        assert peer.say(b".\r\n")[0] == told, lines
    assert peer.say(b"MAIL FROM:<s@x> SIZE=2000000\r\n")[0].startswith(b"452 4.3.1")
    end(server)
    assert count_of(store, "alice") == 1
    return "--memory 1: a text of 2 MiB and such a SIZE are told 452, half a MiB is filed"


def broken_off():
    """Connections that end in a text: nothing is filed."""
    store = new_store("alice")
    server, port = daemon(store, "--lmtp", "0")
    for tail in (b"", b"Subject: x\r\n\r\nHi\r\n", b"Hi\r\n.", b"Hi\r\n.\r"):
        peer = Peer(port)
        greet(peer)
        peer.open(b"alice@x")
        peer.say(b"DATA\r\n")
        peer.sock.sendall(tail)
        peer.close()
    peer = Peer(port)
    greet(peer)
    assert peer.deliver(b"Hi\r\n", b"alice@x")[0].startswith(b"250")
    end(server)
    assert len(inbox(store, "alice")) == 1
    return "four texts that were cut off left nothing"


def away():
    """While another process has the store a recipient waits, and is put off behind 60 seconds."""
    store = new_store("alice")
    server, port = daemon(store, "--lmtp", "0")
    peer = Peer(port)
    greet(peer)
    with open(f"{store.file}.wait", "a") as wait, open(f"{store.file}.lock", "a") as lock:
        fcntl.flock(wait, fcntl.LOCK_EX)
        fcntl.flock(lock, fcntl.LOCK_EX)
        peer.say(b"MAIL FROM:<s@x>\r\n")
        peer.sock.sendall(b"RCPT TO:<alice@x>\r\n")
        began = time.time()
        threading.Timer(1.5, lambda: (fcntl.flock(lock, fcntl.LOCK_UN), fcntl.flock(wait, fcntl.LOCK_UN))).start()
        assert peer.reply().startswith(b"250")
        waited = time.time() - began
        fcntl.flock(wait, fcntl.LOCK_EX)
        fcntl.flock(lock, fcntl.LOCK_EX)
        began = time.time()
        told = peer.say(b"RCPT TO:<alice@x>\r\n")[0]
        put_off = time.time() - began
    end(server)
    assert told.startswith(b"451 4.3.2") and 55 < put_off < 70, (told, put_off)
    return f"had again after {waited:.1f} s; put off behind {put_off:.0f} s"


def sockets():
    """A path, a descriptor, and what stands in the way."""
    store = new_store("alice")
    room = store.folder.name
    path = f"{room}/lmtp"
    server, place = daemon(store, "--lmtp", path)
    assert place == path and stat.S_IMODE(os.stat(path).st_mode) == 0o660, oct(os.stat(path).st_mode)
    peer = Peer(path)
    greet(peer)
    assert peer.deliver(b"Hi\r\n", b"alice@x")[0].startswith(b"250")
    end(server)
    # The socket that a killed one left is taken away.
    server, place = daemon(store, "--lmtp", path)
    assert Peer(path).sock
    end(server)
    os.remove(path)
    with open(path, "w") as file:
        file.write("precious")
    done = subprocess.run(store.words("daemon", "--lmtp", path), capture_output=True, timeout=20)
    assert done.returncode == 64 and open(path).read() == "precious", done
    listener = socket.socket(socket.AF_UNIX)
    listener.bind(f"{room}/given")
    listener.listen()
    server = subprocess.Popen(store.words("daemon", "--lmtp", "-"), stdin=listener, stdout=subprocess.PIPE)
    assert server.stdout.readline() == b"listening on -\n"
    peer = Peer(f"{room}/given")
    greet(peer)
    assert peer.deliver(b"Hi\r\n", b"alice@x")[0].startswith(b"250")
    end(server)
    assert len(inbox(store, "alice")) == 2
    done = subprocess.run(store.words("daemon"), capture_output=True, timeout=20)
    assert done.returncode == 64, done
    return "a path of mode 0660, one that is stale, a file in the way (64), a descriptor; no listener: 64"


def killed():
    """Killed under load: each message that was answered 250 is there (`bench/kill_daemon.py`)."""
    done = subprocess.run([sys.executable, f"{HERE}/../bench/kill_daemon.py", PROGRAM[0], str(trials.some(200))], capture_output=True, text=True, timeout=250)
    assert done.returncode == 0, done.stdout + done.stderr
    return done.stdout.strip()


class Loads:
    """Clients that send numbered messages to alice without end, and note when each was sent and answered, and all that RCPT said."""

    def __init__(self, port, many):
        self.answered, self.said, self.over = [], [], False
        self.threads = [threading.Thread(target=self.send, args=(port, number)) for number in range(many)]
        for thread in self.threads:
            thread.start()

    def send(self, port, number):
        peer, count = Peer(port), 0
        greet(peer)
        while not self.over:
            count += 1
            name = b"%d-%d" % (number, count)
            began = time.time()
            said = peer.open(b"alice@x")[0]
            self.said.append(said)
            if not said.startswith(b"250"):
                continue
            peer.say(b"DATA\r\n")
            if peer.say(b"Subject: %s\r\n\r\nHi\r\n.\r\n" % name)[0].startswith(b"250"):
                self.answered.append((name, began, time.time()))
        peer.close()

    def end(self):
        self.over = True
        for thread in self.threads:
            thread.join()


def messages_in(path):
    """The subjects of the messages of a store's file, whose log is in it."""
    with contextlib.closing(sqlite3.connect(f"file:{path}?immutable=1", uri=True)) as db:
        return {row[0].split(b"Subject: ")[1].split(b"\r\n")[0] for row in db.execute("SELECT bytes FROM message")}


def replaced():
    """The store is removed, renamed and replaced under load: what was answered 250 stands in the file that was there, and no recipient is unknown."""
    store = new_store("alice")
    db = f"{store.folder.name}/mail.db"
    empty = open(db, "rb").read()
    server, port = daemon(store, "--lmtp", "0")
    told = []
    threading.Thread(target=lambda: told.extend(server.stderr), daemon=True).start()
    # Which file was there from when on; those that went are kept by their descriptors.
    there, files = [], []

    def note(file):
        there.append((time.time(), file))

    def put():
        with open(f"{db}.new", "wb") as new:
            new.write(empty)
        files.append(os.open(f"{db}.new", os.O_RDONLY))
        os.rename(f"{db}.new", db)

    files.append(os.open(db, os.O_RDONLY))
    note(0)
    loads = Loads(port, 4)
    for turn in range(trials.some(20) + 2):
        time.sleep(random.uniform(0.5, 1.5))
        now = len(files) - 1
        if turn % 3 == 0:
            put()
            note(now + 1)
            continue
        if turn % 3 == 1:
            os.remove(db)
        else:
            os.rename(db, f"{db}.away")
        note(None)
        time.sleep(random.uniform(0.1, 0.5))
        if turn % 3 == 1:
            put()
        else:
            os.rename(f"{db}.away", db)
        note(len(files) - 1)
    time.sleep(3)
    loads.end()
    end(server)
    assert count_of(store, "alice") > 0
    has = []
    for number, file in enumerate(files):
        path = f"{store.folder.name}/{number}.db"
        with open(path, "wb") as copy, open(file, "rb") as kept:
            copy.write(kept.read())
        has.append(messages_in(path))
    until = [moment for moment, _ in there[1:]] + [time.time()]
    for name, began, ended in loads.answered:
        stood = [file for (since, file), to in zip(there, until) if file is not None and since <= ended and began <= to]
        assert any(name in has[file] for file in stood), (name, began, ended, there)
    unknown = [said for said in loads.said if said.startswith(b"5")]
    assert not unknown, unknown[:3]
    lost = told.count(b"sieved: file was removed or replaced\n")
    assert 0 < lost <= len(there), lost
    put_off = sum(said.startswith(b"451") for said in loads.said)
    return f"{len(there) - 1} changes, {lost} seen; {len(loads.answered)} answered, each in its file; {put_off} of {len(loads.said)} recipients put off"


TRIALS = {"dialogues": dialogues, "names": names, "scripts": scripts, "default": default, "circles": circles, "thousand": thousand, "knocks": knocks, "thirty": thirty, "flood": flood, "room": room, "little_room": little_room,
          "broken_off": broken_off, "away": away, "sockets": sockets, "replaced": replaced, "killed": killed}


def program(path):
    PROGRAM[0] = path


if __name__ == "__main__":
    trials.main(TRIALS, program)
