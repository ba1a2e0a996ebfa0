#!/usr/bin/env python3
"""Tries whether Dovecot lists and opens each folder, whatever its name, in the directory that `folders --maildir` names.

  tests/maildirs.py [--sieved SIEVED] [TRIAL ..]       SIEVED: the program, crates/sieved/out/sieved where none is named

The names: all of one to three octets of a small alphabet, and 10,000 that are drawn. Their directories are held against the rules of
docs/OPERATING.md, as they are written below, and made with a message in each. Dovecot, set up by the lines of that page, is to list all of
them under the names that the rules say, and to open ASKED of them by these. Prints a line for each trial, a last one that counts them, and
ends with 1 where one failed. `tests/run` runs it. It needs what tests/proxy.py needs, else its trials are left out.
"""
import base64, hashlib, itertools, os, random, re, shutil, sqlite3, subprocess, tempfile
import managesieve, proxy, scripts, trials
from contextlib import closing

ALPHABET = b"aA./\\~&% c3\0\n\xc3\xb6"
DRAWN = 10_000
ASKED = 4_000
# Of a Maildir: each folder that is opened for the first time costs Dovecot the more the more folders there are.
TOGETHER = 250
MESSAGE = b"Subject: x\r\n\r\nHi\r\n"
HIGH_PAIR = re.compile(rb"\\[89A-Fa-f][0-9A-Fa-f]")
DIGEST = re.compile(r"\.sha256-[0-9a-f]{64}")
LEVELS = [b"INBOX", b"inbox", b"Inbox", b"iNBOX", b"Inboxes", b"a", b"~", b"~a", b"a~", b"&-", b"&APY-", b"\\2e", b"\\7e", b"\\c3", b"\\c3\\b6", b"\\00", b"\\41",
          b"\\x", b"cur", b"new", b"tmp", b" ", b"\xc3\xb6", b"dovecot", b"subscriptions", b"*", b"%", b"", b"..", b"\xf0\x9d\x84\x9e", b"\xff",
          b"sha256-" + b"0a" * 32, b"sha256-" + b"0A" * 32]
CHARACTERS = "aAzZ059 .~&/\\-+,%*\"'#\n\r\x01\x7föß中é𝄞e\u0301\u2028\ufeff\uffff"


def one_name(draw):
    """A name of 1 to 255 octets: a text in UTF-8, any octets, or levels that mean something to a server."""
    kind = draw.random()
    length = draw.choice([1, 3, 8, 30, 120, 255]) if kind < 0.6 else draw.randint(1, 20)
    if kind < 0.4:
        name = "".join(draw.choice(CHARACTERS) for _ in range(draw.randint(1, length))).encode()
    elif kind < 0.6:
        name = bytes(draw.choice(b"ab./\\~&\xc3\xb6\xff\xf6\x80") if draw.random() < 0.5 else draw.randrange(256) for _ in range(draw.randint(1, length)))
    elif kind < 0.7:
        name = draw.choice(LEVELS[:5]) + draw.choice([b".", b"/"]) + bytes(draw.choice(b"aAbB") for _ in range(length))
    elif kind < 0.75:
        name = bytes(draw.choice(b"xyz") for _ in range(draw.randint(240, 255)))
    else:
        name = draw.choice([b".", b"/"]).join(draw.choice(LEVELS) for _ in range(draw.randint(1, 4)))
    return name[:255]


def names():
    draw = random.Random(20_251_125)
    found = dict.fromkeys(bytes(octets) for length in (1, 2, 3) for octets in itertools.product(ALPHABET, repeat=length))
    wanted = len(found) + DRAWN
    while len(found) < wanted:
        found[one_name(draw)] = None
        found.pop(b"", None)
    return [*found]


def encoded(text):
    """Modified UTF-7 (RFC 3501, section 5.1.3)."""
    run = lambda others: base64.b64encode(others.encode("utf-16-be")).decode().rstrip("=").replace("/", ",")
    return re.sub("&|[^ -~]+", lambda part: "&-" if part[0] == "&" else f"&{run(part[0])}-", text)


def escaped(level):
    """A level as Dovecot's plugin listescape writes it."""
    return re.sub(r"^~|[./\\]", lambda octet: f"\\{ord(octet[0]):02x}", level)


def as_text(name, separator):
    """The text of a name that Dovecot can list under its own, else None."""
    if b"" in name.split(separator.encode()) or b"\0" in name or HIGH_PAIR.search(name):
        return None
    try:
        return name.decode()
    except UnicodeDecodeError:
        return None


def by_rules(name, separator):
    """The directory of a folder, and the name that it has in IMAP."""
    first, cut, rest = name.partition(separator.encode())
    if first.upper() == b"INBOX":
        if not cut:
            return ".", "INBOX"
        name = b"INBOX" + cut + rest
    text = as_text(name, separator)
    if text is not None:
        place = "." + ".".join(encoded(escaped(level)) for level in text.split(separator))
        if len(place) <= 250 and not DIGEST.fullmatch(place):
            return place, encoded(text)
    digest = f"sha256-{hashlib.sha256(name).hexdigest()}"
    return f".{digest}", digest


def fill(store, folders):
    """Writes rows as deliveries would, since so many deliveries take long: alice has one message in all the folders."""
    with closing(sqlite3.connect(store.file)) as conn, conn:
        conn.execute("INSERT INTO message(owner, id, bytes) VALUES (?, 1, ?)", (b"alice", MESSAGE))
        conn.executemany("INSERT INTO copy(owner, folder, n, id, flags) VALUES (?, ?, ?, 1, X'')", ((b"alice", name, n) for n, name in enumerate(folders, 1)))
        conn.execute("UPDATE account SET next_copy = ? WHERE name = ?", (len(folders) + 1, b"alice"))


def directories(store, folders, separator):
    """The directory of each folder by `folders --maildir`, which lists them in the order of their octets."""
    listing = store.run("folders", "--maildir", "--separator", separator, "alice")
    found, at = {}, 0
    for name in sorted(folders):
        end = b" 1 " + name + b"\n"
        to = listing.find(end, at)
        assert to >= 0, (name, listing[at:at + 300])
        found[name] = listing[at:to].decode()
        at = to + len(end)
    assert at == len(listing), listing[at:at + 300]
    return found


def make(maildir, places):
    """Makes Maildirs with a message in each, the user's own first. Returns the size of each message, by which it is told from the others."""
    sizes = {place: size for size, place in enumerate(sorted(places), 1)}
    for place, size in sizes.items():
        for part in "tmp", "new", "cur":
            os.makedirs(f"{maildir}/{place}/{part}")
        with open(f"{maildir}/{place}/new/{size}.x,S={size},W={size}", "wb") as file:
            file.write(MESSAGE)
    subprocess.run(["chown", "-R", "nobody:nogroup", maildir], check=True)
    return sizes


def listed(client):
    """The mailboxes that LIST shows, but for what is only above another one."""
    lines = [line for line in client.list()[1] if line]
    return [proxy.name_of(line) for line in lines if b"\\Noselect" not in proxy.first_of(line)]


def opened(client, mailbox):
    """How many messages a mailbox has, and their size."""
    quoted = re.sub(r'(["\\])', r"\\\1", mailbox)
    status, answer = client.status(f'"{quoted}"', "(MESSAGES SIZE)")
    told = b"".join(b"".join(part) if isinstance(part, tuple) else part for part in answer if part)
    counts = re.search(rb"\(MESSAGES (\d+) SIZE (\d+)\)$", told)
    assert status == "OK" and counts, (mailbox, status, told)
    return int(counts[1]), int(counts[2])


def reads(host, place_of, is_asked):
    """Dovecot lists each of the mailboxes, whose directories are given, and nothing else, and finds its own message in it where it is asked."""
    maildir = f"{host.room}/var/mail/alice"
    shutil.rmtree(maildir, ignore_errors=True)
    sizes = make(maildir, {*place_of.values()})
    client = host.imap_client("alice", "human")
    found = listed(client)
    assert len(found) == len({*found}), "a mailbox is listed twice"
    lacking, more = ([*{*one} - {*two}] for one, two in ((place_of, found), (found, place_of)))
    assert not lacking and not more, ([(len(lacking), mailbox, place_of[mailbox]) for mailbox in lacking[:9]], len(more), more[:9])
    for mailbox in place_of if is_asked else ():
        answer = opened(client, mailbox)
        assert answer == (1, sizes[place_of[mailbox]]), (mailbox, place_of[mailbox], answer)
    client.logout()


def by(separator):
    folders = names()
    store = managesieve.Store(["alice"], scripts.PROGRAM[0])
    fill(store, folders)
    told = directories(store, folders, separator)
    meant = {name: by_rules(name, separator) for name in folders}
    wrong = [(name, told[name], meant[name][0]) for name in folders if told[name] != meant[name][0]]
    assert not wrong, (len(wrong), wrong[:9])
    place_of = {"INBOX": ".", **{mailbox: place for place, mailbox in meant.values()}}
    assert len(place_of) == len({*place_of.values()})
    asked = random.Random(1).sample(sorted(place_of), ASKED)
    with proxy.a_host(separator) as host:
        host.add_user("alice", host.store, "human")
        reads(host, place_of, False)
        for at in range(0, ASKED, TOGETHER):
            reads(host, {mailbox: place_of[mailbox] for mailbox in ["INBOX", *asked[at:at + TOGETHER]]}, True)
    return f"{len(folders)} names lie in {len(place_of)} directories, Dovecot lists each, and opens {ASKED} of them by the names that it lists"


def by_dot():
    return by(".")


def by_slash():
    return by("/")


TRIALS = {trial.__name__: trial for trial in (by_dot, by_slash)}

if __name__ == "__main__":
    # so many directories take long on a disk
    tempfile.tempdir = "/dev/shm" if os.path.isdir("/dev/shm") else None
    trials.main(TRIALS, lambda program: scripts.PROGRAM.__setitem__(0, program))
