#!/usr/bin/env python3
"""Writes crates/test_runs/data/events.cases: 300 events of three users and five sessions, then each user's events alone in a world of its own.

What is wanted comes from the model below, which is written from RFC 5804, RFC 5228 and RFC 5230, and for what an administrator does from
crates/store_engine/specs/Upkeep.antt. It knows nothing of the program: scripts stand in it by what they mean, messages by their fields. It
also asserts that each user's answers and possessions are the same alone.

    python3 tests/cases/events.py > crates/test_runs/data/events.cases
"""
import base64
import datetime
import hashlib
import random
import accounttexts

DAY = 86400
HALF_DAY = 43200
MOST_WAITING = 1000
MOST_SENT = 16
MOST_WRITTEN = 64 * 1024 * 1024
SESSIONS = {1: "uma", 2: "uma", 3: "vic", 4: "vic", 5: "wes"}
RECEIVED = "Received: x\r\n" * 101
PASSWORDS = {"uma": "secret", "vic": "secret", "wes": "pass word"}
CAPABILITIES = ['"IMPLEMENTATION" "sieved 1"', '"SASL" "PLAIN"', '"SIEVE" "fileinto envelope vacation copy vacation-seconds subaddress relational comparator-i;ascii-numeric encoded-character mailbox date imap4flags"',
                '"MAXREDIRECTS" "16"', '"UNAUTHENTICATE"', '"VERSION" "1.0"']

# What a script means: its text, then the folders, targets and vacation of a message. A vacation is (days, subject, handle, reason).
SCRIPTS = {
    "keep": ('keep;', lambda m: (["INBOX"], [], None)),
    "lists": ('require "fileinto"; if header :contains "subject" "[list]" { fileinto "lists"; }',
              lambda m: (["lists" if "[list]" in m["subject"].lower() else "INBOX"], [], None)),
    "copy": ('redirect "c@example.com"; keep;', lambda m: (["INBOX"], ["c@example.com"], None)),
    "two": ('redirect "d@example.com"; redirect "c@example.com";', lambda m: ([], ["d@example.com", "c@example.com"], None)),
    "away": ('require "vacation"; vacation "Away.";', lambda m: (["INBOX"], [], (7, None, None, "Away."))),
    "soon": ('require "vacation"; vacation :days 1 :subject "Soon" "Back soon.";', lambda m: (["INBOX"], [], (1, "Soon", None, "Back soon."))),
    "seen": ('require ["fileinto", "vacation"]; vacation :days 3 :handle "h" "Away."; fileinto "seen"; fileinto "all";',
             lambda m: (["seen", "all"], [], (3, None, "h", "Away."))),
    "none": ('discard;', lambda m: ([], [], None)),
    "twice": ('require "vacation"; vacation "a"; vacation "b";', lambda m: "vacation executed twice"),
}
KEEPING = ["password", "address", "store", "storeactive", "closeaccount", "openaccount", "remove", "removemail", "takenotices"]
WRONG = {'fileinto "x";': "line 1: extension not required", 'keep;\r\nfrob;': "line 2: unknown command"}


def account(user):
    return {"address": user + "@example.org", "password": PASSWORDS[user], "state": "open", "scripts": {}, "active": None, "folders": {},
            "queue": [], "ids": 1, "notices": [], "kept": {}, "sent": {}, "rounds": 10_000}


def emptied(acc):
    """What a removed account still has: its address, the moments of its replies and of what was sent on, and its numbers."""
    return {**acc, "password": None, "scripts": {}, "active": None, "folders": {}, "queue": [], "notices": []}


def reply_octets(mine, sender, message, vacation, moment):
    """RFC 5230, 5: the response."""
    _, subject, _, reason = vacation
    at = datetime.datetime.fromtimestamp(moment, datetime.timezone.utc)
    lines = ["From: " + mine, "To: <" + sender + ">", "Subject: " + (subject or "Auto: " + message["subject"]),
             "Date: " + at.strftime("%a, ") + str(at.day) + at.strftime(" %b %Y %H:%M:%S +0000"), "Auto-Submitted: auto-replied"]
    if message["id"]:
        lines.append("In-Reply-To: " + message["id"])
    lines += ["MIME-Version: 1.0", "Content-Type: text/plain; charset=utf-8", "Content-Transfer-Encoding: 8bit", "", reason]
    return "".join(line + "\r\n" for line in lines)


def octets_of(message):
    id_line = "Message-ID: " + message["id"] + "\r\n" if message["id"] else ""
    return (f"{message.get('before', '')}From: {message['from']}\r\nTo: {message['to']}\r\nSubject: {message['subject']}\r\n"
            f"{id_line}{message['more']}\r\n{message['text']}\r\n")


def come_to(message, scripts):
    """Folders, targets, vacation and the notice of a failure: scripts one behind the other, each with what a notice of it begins with, as
    docs/SCRIPTS.md has it. The next one runs where the message is still to be kept, which each of SCRIPTS says by INBOX."""
    others, targets, vacation, is_kept = [], [], None, True
    for whose, script in scripts:
        meaning = SCRIPTS[script][1](message)
        if isinstance(meaning, str):
            return others + ["INBOX"], targets, vacation, whose + meaning
        folders, more, answering = meaning
        others += [name for name in folders if name != "INBOX" and name not in others]
        targets += [target for target in more if target not in targets]
        vacation, is_kept = vacation or answering, "INBOX" in folders
        if not is_kept:
            break
    return others + ["INBOX"] * is_kept, targets, vacation, None


def deliver(acc, sender, message, moment, default=None, before=None, after=None):
    """The lines of the report (RFC 5228, 2.10; RFC 5230, 4); the host's default script decides where none is active."""
    octets = octets_of(message)
    own = acc["scripts"][acc["active"]] if acc["active"] else default
    scripts = [(whose, script) for whose, script in (("before: ", before), ("", own), ("after: ", after)) if script]
    folders, targets, vacation, failure = come_to(message, scripts)
    if message["more"].count("Received:") > 100:
        folders, targets, vacation, failure = ["INBOX"], [], None, "more than 100 Received fields"
    known = sent_to(acc, message, moment)
    fresh = [target for target in targets if target not in known]
    limits = [(MOST_WAITING - len(acc["queue"]), "queue is full"), (max(1, MOST_WRITTEN // len(octets)), "too large to be sent on to all"),
              (max(0, MOST_SENT - len(known)), "sent on to 16 addresses before")]
    going = fresh[:min(most for most, _ in limits)]
    if len(going) < len(targets) and "INBOX" not in folders:
        folders = folders + ["INBOX"]
    lines = []
    for name in folders:
        acc["folders"].setdefault(name, []).append(octets)
        lines.append("file " + name)
    for target in going:
        acc["queue"].append((acc["ids"], "redirect", sender, target, len(octets)))
        acc["ids"] += 1
        lines.append("send " + target)
    remember(acc, message, going, moment, failure is None)
    if vacation:
        lines.append(answer(acc, sender, message, vacation, moment))
    if failure or len(going) < len(targets):
        notice = failure or next((text for most, text in limits if most < len(fresh)), "sent on before")
        acc["notices"].append((moment, notice))
        lines.append("notice " + notice)
    return lines or ["discard"]


def names_of(message):
    """A message that is sent on is the same by its Message-ID, or without one by its body; one that was sent on without it is known by its body."""
    names = [b"\x01" + message["id"].encode()] if message["id"] else []
    return [hashlib.sha256(name).digest() for name in names + [b"\x02" + (message["text"] + "\r\n").encode()]]


def sent_to(acc, message, moment):
    """The addresses to which the message was sent less than 12 hours from this moment, whichever comes first, one for each time."""
    names = names_of(message)
    return [target for (_, name, target), kept in acc["sent"].items() if name in names and abs(moment - kept) < HALF_DAY]


def remember(acc, message, going, moment, forgets):
    """What was sent on is kept by its half day; of half days before the last one 32 are forgotten, the oldest first, unless a script failed."""
    half = moment // HALF_DAY
    for key in sorted(key for key in acc["sent"] if key[0] < half - 1)[:32] if forgets else []:
        del acc["sent"][key]
    for target in going:
        acc["sent"][(half, names_of(message)[0], target)] = moment


def answer(acc, sender, message, vacation, moment):
    days, subject, handle, reason = vacation
    key = (("named", handle) if handle else (subject, reason), sender.lower())
    kept = acc["kept"].get(key)
    full = len(acc["queue"]) >= MOST_WAITING
    quiet = 1 if not sender else 3 if sender.startswith("owner-") else 4 if sender.lower() == acc["address"] else \
        7 if "Precedence: bulk" in message["more"] else 8 if acc["address"] not in message["to"].split(", ") else \
        9 if kept is not None and moment < kept + days * DAY else 10 if full else 0
    if quiet:
        return f"vacation quiet {quiet}"
    acc["kept"][key] = moment
    octets = reply_octets(acc["address"], sender, message, vacation, moment)
    acc["queue"].append((acc["ids"], "reply", "", sender, len(octets)))
    acc["ids"] += 1
    return "vacation sent"


def keep(acc, kind, *rest):
    """What an administrator does to an account: each word's row in crates/store_engine/specs/Upkeep.antt."""
    if kind == "password" and not rest[0] or kind == "address" and "@" not in rest[0]:
        return ["refused: bad user"]
    if kind in ("store", "storeactive") and rest[0] == "":
        return ["refused: bad script name"]
    if acc is None or acc["state"] == "removed" or acc["state"] == "closed" and kind not in ("openaccount", "remove", "removemail"):
        return ["refused: no such user"]
    if kind in ("store", "storeactive"):
        name, script = rest
        if script in WRONG:
            return ["invalid"]
        acc["scripts"][name], acc["active"] = script, name if kind == "storeactive" else acc["active"]
        return ["stored"]
    if kind in ("remove", "removemail"):
        if kind == "remove" and (acc["folders"] or acc["queue"]):
            return ["refused: user has mail"]
        acc.update({**emptied(acc), "state": "removed"})
        return ["removed"]
    if kind == "takenotices":
        acc["notices"] = [notice for notice in acc["notices"] if notice[0] > rest[0]]
        return ["notices taken"]
    if kind in ("closeaccount", "openaccount"):
        wanted = "closed" if kind == "closeaccount" else "open"
        if acc["state"] == wanted:
            return ["refused: user is open"]
        acc["state"] = wanted
        if wanted == "open" and acc["rounds"] != 10_000:
            acc["password"] = None
        return [{"closed": "closed", "open": "opened"}[wanted]]
    acc[kind] = rest[0]
    acc["rounds"] = 10_000 if kind == "password" else acc["rounds"]
    return ["changed"]


def sent(lines):
    """The lines of one answer, of which the last is shown without its CRLF."""
    return [line + "\r" for line in lines[:-1]] + lines[-1:]


def later(kept, more):
    """Of two moments for one reply the later one stays."""
    return {**kept, **{key: max(moment, kept.get(key, 0)) for key, moment in more.items()}}


def digest(word, salt=b"0123456789abcdef", rounds=10_000):
    """As docs/STORE.md has it."""
    found = hashlib.sha256(salt + word).digest()
    for _ in range(rounds):
        found = hashlib.sha256(found + salt + word).digest()
    return found


DIGESTS = {user: digest(word.encode()) for user, word in PASSWORDS.items()}


def text_of(user, drawn):
    """The text of an account, as README.md of crates/store_text spells it. Of replies it has those under a handle that is named."""
    parts = [(b"script", name.encode(), (SCRIPTS[key][0] if key in SCRIPTS else key).encode()) for name, key in sorted(drawn["scripts"].items())]
    parts += [(b"reply", b"\x01" + key[1].encode(), sender.encode(), moment) for (key, sender), moment in sorted(drawn["kept"].items())]
    number = 1
    for folders, octets in drawn["messages"]:
        parts += [(b"copy", number + at, folder.encode(), number) if at else (b"mail", number, folder.encode(), octets.encode()) for at, folder in enumerate(folders)]
        number += len(folders)
    parts += [(b"redirect", id, sender.encode(), target.encode(), octets.encode()) for id, sender, target, octets in drawn["letters"]]
    parts += [(b"notice", at, moment, text.encode()) for at, (moment, text) in enumerate(drawn["notices"], 1)]
    numbers = 0 if drawn["state"] == "closed" else 10_000, number, drawn["ids"], len(drawn["notices"]) + 1
    owner = user.encode(), drawn["address"].encode(), b"0123456789abcdef", DIGESTS[user]
    return b"".join(accounttexts.account(parts, owner, numbers, drawn["active"].encode() if drawn["active"] else None))


class Session:
    def __init__(self):
        self.user, self.failures, self.pending, self.closed = None, 0, False, False
        self.units = []


class Model:
    """The accounts, and sessions by number (RFC 5804)."""

    def __init__(self, users):
        # Those that a world begins with have passwords of one round, and what opens an account takes them for 10,000.
        self.accounts = {user: {**account(user), "rounds": 1} for user in users}
        self.sessions = {}

    def happen(self, event):
        kind, rest = event[0], event[1:]
        if kind in ("open", "give", "step", "giveup", "close"):
            number = rest[0]
            if (number in self.sessions) == (kind == "open"):
                return ["ignored"]
            if kind == "open":
                self.sessions[number] = Session()
                return sent(CAPABILITIES + ["OK"])
            return getattr(self, kind)(number, *rest[1:])
        user = rest[0]
        acc = self.accounts.get(user)
        if kind == "adduser":
            return self.add(user, acc)
        if kind == "import":
            return self.bring(user, rest[1], acc)
        if kind in KEEPING:
            return keep(acc, kind, *rest[1:])
        if acc is None or acc["state"] == "removed" or acc["state"] == "closed" and kind != "deliver":
            return ["refused: no such user"]
        if acc["state"] == "closed":
            return ["refused: account is closed"]
        if kind == "deliver":
            return deliver(acc, *rest[1:])
        for row in acc["queue"]:
            if row[0] == rest[1]:
                acc["queue"].remove(row)
                return [f"taken {row[0]} {row[3]}"]
        return ["refused: no such row"]

    def add(self, user, acc):
        """A new account, over what one that is closed keeps."""
        if acc and acc["state"] == "open":
            return ["refused: user exists"]
        if acc and (acc["folders"] or acc["queue"]):
            return ["refused: user has mail"]
        kept = {name: acc[name] for name in ("kept", "sent", "ids")} if acc else {}
        self.accounts[user] = {**account(user), **kept}
        return ["added"]

    def bring(self, user, drawn, acc):
        """An account that comes whole, over the moments that one that is closed keeps."""
        if drawn["address"] == "nobody" or any(key in WRONG for key in drawn["scripts"].values()):
            return ["refused: bad account"]
        if acc and acc["state"] == "open":
            return ["refused: user exists"]
        if acc and (acc["folders"] or acc["queue"]):
            return ["refused: user has mail"]
        new = {**account(user), **{name: drawn[name] for name in ("address", "state", "scripts", "active", "ids")}}
        new.update(scripts=dict(drawn["scripts"]), notices=list(drawn["notices"]), kept=later(acc["kept"] if acc else {}, drawn["kept"]), sent=dict(acc["sent"]) if acc else {})
        new["queue"] = [(id, "redirect", sender, target, len(octets)) for id, sender, target, octets in drawn["letters"]]
        for folders, octets in drawn["messages"]:
            for folder in folders:
                new["folders"].setdefault(folder, []).append(octets)
        self.accounts[user] = new
        return ["imported"]

    def give(self, number, octets, ended):
        session = self.sessions[number]
        if session.closed:
            return ["close"]
        session.units += ended
        return []

    def close(self, number):
        del self.sessions[number]
        return ["close"]

    def item(self, session):
        """The first whole command of what was given, taken off."""
        if not session.units:
            return None
        return session.units.pop(0)

    def giveup(self, number):
        session = self.sessions[number]
        if session.closed:
            return ["close"]
        if self.item(session) is None:
            return ["need"]
        session.pending = False
        return ['NO (TRYLATER) "Try later."']

    def step(self, number):
        session = self.sessions[number]
        if session.closed:
            return ["close"]
        unit = self.item(session)
        if unit is None:
            return ["need"]
        lines = self.obey(session, unit)
        session.closed = lines[0].startswith("BYE") or lines[0] == 'OK "Bye."'
        return sent(lines) + ["close"] * session.closed

    def login(self, session, text):
        user, word = text
        acc = self.accounts.get(user)
        if acc and acc["state"] == "open" and acc["password"] == word:
            session.user, session.failures = user, 0
            return ['OK "Logged in."']
        session.failures += 1
        return ['BYE "Too many failures."'] if session.failures == 3 else ['NO "Authentication failed."']

    def obey(self, session, unit):
        word, args = unit[0], unit[1:]
        if session.pending:
            session.pending = False
            if word == "cancel":
                return ['NO "Cancelled."']
            return self.login(session, args[0]) if word == "text" else ['NO "Syntax error."']
        if word in ("cancel", "text", "wrong"):
            return ['NO "Syntax error."']
        if word == "authenticate":
            if session.user:
                return ['NO "Already logged in."']
            if args[0] is None:
                session.pending = True
                return ['""']
            return self.login(session, args[0])
        if word == "noop":
            return [f'OK (TAG "{args[0]}") "Done."' if args else 'OK "Done."']
        if word == "capability":
            return CAPABILITIES + ([f'"OWNER" "{session.user}"'] if session.user else []) + ["OK"]
        if word == "logout":
            return ['OK "Bye."']
        if not session.user:
            return ['NO "Log in first."']
        if word == "unauthenticate":
            session.user, session.failures = None, 0
            return ['OK "Done."']
        if word != "checkscript" and self.accounts[session.user]["state"] != "open":
            session.user = None
            return ['NO "Log in first."']
        return self.script_command(self.accounts[session.user], word, *args)

    def script_command(self, acc, word, *args):
        scripts, absent = acc["scripts"], ['NO (NONEXISTENT) "No such script."']
        if word == "havespace":
            return ['OK "Done."'] if args[1] <= 262_144 else ['NO (QUOTA/MAXSIZE) "Script too large."']
        if word in ("putscript", "checkscript"):
            name, script = args
            if name == "":
                return ['NO "Bad script name."']
            if script in WRONG:
                return [f'NO "{WRONG[script]}"']
            if word == "checkscript":
                return ['OK "Valid."']
            scripts[name] = script
            return ['OK "Stored."']
        if word == "listscripts":
            return [f'"{name}"' + (" ACTIVE" if name == acc["active"] else "") for name in sorted(scripts)] + ["OK"]
        name = args[0]
        if word == "setactive" and name == "":
            acc["active"] = None
            return ['OK "Done."']
        if name not in scripts:
            return absent
        if word == "setactive":
            acc["active"] = name
        elif word == "getscript":
            text = SCRIPTS[scripts[name]][0]
            return ["{%d}" % len(text), text, "OK"]
        elif word == "deletescript":
            if acc["active"] == name:
                return ['NO (ACTIVE) "Script is active."']
            del scripts[name]
        elif word == "renamescript":
            if args[1] == "":
                return ['NO "Bad script name."']
            if args[1] in scripts:
                return ['NO (ALREADYEXISTS) "Name is taken."']
            scripts[args[1]] = scripts.pop(name)
            if acc["active"] == name:
                acc["active"] = args[1]
        return ['OK "Done."']


def plain(user, word):
    return base64.b64encode(f"\0{user}\0{word}".encode()).decode()


def spelled(unit):
    """The octets of a command."""
    word, args = unit[0], unit[1:]
    if word == "authenticate":
        return 'AUTHENTICATE "PLAIN"' + ("" if args[0] is None else f' "{plain(*args[0])}"') + "\r\n"
    if word == "text":
        return f'"{plain(*args[0])}"\r\n'
    if word == "cancel":
        return '"*"\r\n'
    if word == "wrong":
        return "FROB 1\r\n"
    if word in ("putscript", "checkscript"):
        text = SCRIPTS[args[1]][0] if args[1] in SCRIPTS else args[1]
        name = f' "{args[0]}"' if word == "putscript" else ""
        return f"{word.upper()}{name} {{{len(text)}+}}\r\n{text}\r\n"
    if word == "havespace":
        return f'HAVESPACE "{args[0]}" {args[1]}\r\n'
    return " ".join([word.upper()] + [f'"{arg}"' for arg in args]) + "\r\n"


def chosen_unit(rng, user):
    login, some = ("authenticate", (user, PASSWORDS[user])), rng.choice(["a", "b", "main"])
    return rng.choice([
        login, login, login, ("authenticate", (user, "wrong")), ("authenticate", None), ("noop",), ("noop", "t"), ("capability",), ("wrong",),
        ("unauthenticate",), ("logout",), ("havespace", some, rng.choice([10, 262_144, 262_145])), ("listscripts",), ("getscript", some),
        ("setactive", some), ("setactive", some), ("setactive", some), ("setactive", ""), ("deletescript", some),
        ("renamescript", some, rng.choice(["a", "b", "c", ""])), ("checkscript", "x", rng.choice([*WRONG, *SCRIPTS])),
        ("putscript", rng.choice(["a", ""]), rng.choice([*WRONG])),
    ] + [("putscript", some, name) for name in [*SCRIPTS, "away", "away", "soon", "seen"]] + [("setactive", some)] * 3)


def chosen_message(rng, user):
    return {"from": "x@example.net", "to": rng.choice([f"{user}@example.org"] * 3 + [f"c@example.org, {user}@example.org", "other@example.org"]),
            "subject": rng.choice(["Lunch", "[list] Lunch", "Re: [LIST] x"]), "id": rng.choice(["", "<m1@example.net>"]),
            "more": rng.choice([""] * 9 + ["Precedence: bulk\r\n", RECEIVED]), "text": rng.choice(["Hi", "Ho"])}


class Stream:
    """What the client of a session sends: commands, which are cut into pieces anywhere."""

    def __init__(self, rng, user):
        self.rng, self.user, self.unit, self.rest = rng, user, None, ""

    def begin(self):
        """The next command. After the beginning of an exchange comes one line."""
        texts = [("cancel",), ("text", (self.user, PASSWORDS[self.user])), ("text", (self.user, "wrong")), ("noop",)]
        begun, login = self.unit == ("authenticate", None), ("authenticate", (self.user, PASSWORDS[self.user]))
        self.unit = self.rng.choice(texts) if begun else chosen_unit(self.rng, self.user) if self.unit else login
        self.rest = spelled(self.unit)

    def piece(self):
        """The octets of a Give, and the commands that end in it."""
        octets, ended = "", []
        for _ in range(self.rng.choice([1, 1, 1, 2])):
            if not self.rest:
                self.begin()
            octets, self.rest, ended = octets + self.rest, "", ended + [self.unit]
        if self.rng.random() < 0.25:
            kept = self.rng.randrange(1, len(spelled(self.unit)))
            if kept < len(octets):
                octets, self.rest, ended = octets[:-kept], octets[-kept:], ended[:-1]
        return octets, ended


def chosen_event(rng, streams, clock):
    number, user, dice = rng.choice([*SESSIONS]), rng.choice(["uma", "vic", "wes"]), rng.random()
    if dice < 0.28:
        return ("give", number, *streams[number].piece())
    if dice < 0.64:
        return ("step", number)
    if dice < 0.67:
        return ("giveup", number)
    if dice < 0.73:
        return (rng.choice(["open", "open", "close"]), number)
    if dice < 0.90:
        clock[0] += rng.choice([1, 1, 3600, DAY, 2 * DAY, -3600])
        sender = rng.choice(["bob@example.net"] * 6 + ["BOB@example.net", "dana@example.net", "", "owner-x@example.net", user + "@example.org"])
        default = rng.choice([None, None, "lists", "two", "away", "none", "twice"])
        host = [rng.choice([None, None, "keep", "lists", "lists", "copy", "away", "soon", "seen", "none", "twice"]) for _ in range(2)]
        return ("deliver", user, sender, chosen_message(rng, user), clock[0], default, *host)
    if dice < 0.96:
        return chosen_keeping(rng, user, clock[0])
    if dice < 0.98:
        return ("import", user, chosen_account(rng, user, clock[0]))
    return ("adduser", user) if dice < 0.99 else ("takeout", user, rng.randrange(1, 6))


def chosen_account(rng, user, moment):
    """What the text of an account says: few of each part, or none."""
    scripts = {name: rng.choice([*SCRIPTS, *SCRIPTS, *WRONG]) for name in rng.sample(["a", "b", "main"], rng.randrange(3))}
    messages = [(rng.sample(["INBOX", "all", "lists"], rng.choice([1, 1, 2])), octets_of({**chosen_message(rng, user), "more": ""})) for _ in range(rng.randrange(3))]
    letters = [(2 * at + 1, "x@example.net", "c@example.com", octets_of({**chosen_message(rng, user), "more": ""})) for at in range(rng.randrange(3))]
    return {"address": rng.choice([f"{user}@example.org"] * 5 + ["nobody"]), "state": rng.choice(["open"] * 4 + ["closed"]), "scripts": scripts,
            "active": rng.choice([None, *scripts, *scripts]), "messages": messages, "letters": letters, "ids": 2 * len(letters) + rng.choice([1, 2]),
            "notices": [(moment - DAY, "vacation executed twice")] * rng.randrange(2),
            "kept": {(("named", "h"), sender): moment - rng.choice([0, DAY, 2 * DAY]) for sender in rng.sample(["bob@example.net", "dana@example.net"], rng.randrange(3))}}


def chosen_keeping(rng, user, moment):
    """What an administrator does: an account is opened more often than it is closed or removed."""
    kind = rng.choice(["password", "address", "store", "storeactive", "takenotices", "closeaccount", "remove", "removemail"] + ["storeactive", "openaccount"] * 2)
    if kind == "password":
        return (kind, user, rng.choice([PASSWORDS[user]] * 3 + ["another", ""]))
    if kind == "address":
        return (kind, user, rng.choice([f"{user}@example.org"] * 2 + ["c@example.org", "other@example.org", "nobody"]))
    if kind in ("store", "storeactive"):
        return (kind, user, rng.choice(["a", "main", "main", ""]), rng.choice([*SCRIPTS, *WRONG]))
    return (kind, user, moment - rng.choice([0, DAY])) if kind == "takenotices" else (kind, user)


def events_of(seed):
    """The list: what comes for a session that isn't open is lost, so its client begins anew. Some messages come again, within 12 hours or then."""
    rng, again, clock, open_numbers = random.Random(seed), random.Random(seed), [1700000000], set()
    streams = {number: Stream(rng, user) for number, user in SESSIONS.items()}
    events = []
    while len(events) < 300:
        event = ("open", len(events) + 1) if len(events) < 5 else chosen_event(rng, streams, clock)
        if event[0] == "open":
            open_numbers.add(event[1])
        if event[0] == "close" or event[0] == "give" and event[1] not in open_numbers:
            open_numbers.discard(event[1])
            streams[event[1]] = Stream(rng, SESSIONS[event[1]])
        events.append(event)
        if event[0] == "deliver" and len(events) < 300 and again.random() < 0.5:
            events.append((*event[:4], event[4] + again.choice([0, 60, HALF_DAY - 1, HALF_DAY]), *event[5:]))
    return events


def user_of(event):
    return SESSIONS[event[1]] if isinstance(event[1], int) else event[1]


def escaped(text):
    return text.replace(RECEIVED, "%{Received: x%0D%0A*101}").replace("\r", "%0D")


def section(event, state):
    """The lines of an event."""
    kind, who = event[0], event[1]
    if kind == "give":
        text = escaped(event[2]).replace("\n", "%0A").replace(" ", "%20", 1 if event[2].startswith(" ") else 0)
        return f"== piece {who}\n{text[:-1] + '%20' if text.endswith(' ') else text}\n"
    if kind == "deliver":
        lines = f"== from\n{event[2]}\n" if state.get("from") != event[2] else ""
        lines += f"== moment\n{event[4]}\n" if state.get("moment") != event[4] else ""
        for word, script in zip(("default", "before", "after"), event[5:]):
            lines += (f"== {word}\n{SCRIPTS[script][0]}\n" if script else f"== {word} none\n") if state.get(word, "") != script else ""
            state[word] = script
        state.update({"from": event[2], "moment": event[4]})
        return lines + f"== deliver {who}\n{octets_of(event[3]).replace(RECEIVED, '%{Received: x%0A*101}').replace(chr(13), '')}\n"
    if kind in ("password", "address"):
        return f"== {kind} {who}\n{event[2]}\n"
    if kind == "import":
        return f"== import {who}\n" + "".join(chr(o) if o == 10 or 31 < o < 127 and o != 37 else f"%{o:02X}" for o in text_of(who, event[2])) + "\n"
    if kind in ("store", "storeactive"):
        return f"== {kind} {who} {event[2]}".rstrip() + f"\n{SCRIPTS[event[3]][0] if event[3] in SCRIPTS else event[3].replace(chr(13), '')}\n"
    if kind == "adduser":
        return f"== adduser {who}\n{who}@example.org\n{PASSWORDS[who]}\n"
    return f"== {kind} {' '.join(map(str, event[1:]))}\n"


def possessions(user, acc):
    """What a user has: the questions, and their answers. Of one who isn't open nothing is told."""
    if acc["state"] != "open":
        return "".join(f"== {word} {user}\n" for word in ("scripts", "folders", "queue", "notices")), ["refused: no such user"] * 4
    asked = [f"== scripts {user}\n"] + [f"== text {user} {name}\n" for name in sorted(acc["scripts"])]
    lines = sorted(acc["scripts"]) + ["text " + SCRIPTS[acc["scripts"][name]][0] for name in sorted(acc["scripts"])]
    asked.append(f"== folders {user}\n")
    lines += [f"{name} {len(acc['folders'][name])}" for name in sorted(acc["folders"])]
    for name in sorted(acc["folders"]):
        asked.append(f"== folder {user} {name}\n")
        lines += [str(len(acc["folders"][name]))] + acc["folders"][name]
    asked += [f"== queue {user}\n", f"== notices {user}\n"]
    lines += [f"{number} {kind} <{sender}> <{target}> {octets}" for number, kind, sender, target, octets in acc["queue"]]
    return "".join(asked), lines + [f"{moment} {text}" for moment, text in acc["notices"]]


def world(note, events, users):
    """A world of its own with what the events answer; the model at its end, and the answers."""
    model, state = Model([user for user in users if user != "wes"]), {}
    print(f"== # {note}\n\n== world")
    for user in model.accounts:
        print(f"== account {user}\n{user}@example.org")
    answers = []
    for event in events:
        print(section(event, state), end="")
        answers.append(model.happen(event))
    print("== wanted")
    print(*[escaped(line) for lines in answers for line in lines], sep="\n")
    for user in users:
        asked, lines = possessions(user, model.accounts[user])
        print(f"\n{asked}== wanted")
        print(*map(escaped, lines), sep="\n")
    print()
    return model, answers


def main():
    print(HEAD)
    events = events_of(8157)
    users = ["uma", "vic", "wes"]
    model, answers = world("all events", events, users)
    for user in users:
        own = [event for event in events if user_of(event) == user]
        alone, alone_answers = world(f"the {len(own)} events of {user} alone", own, [user])
        assert alone_answers == [given for event, given in zip(events, answers) if user_of(event) == user], user
        assert alone.accounts[user] == model.accounts[user], user


HEAD = """# Three hundred events of three users and five sessions, of which each is used by one user, and then each user's events alone in a world of
# its own: answers, scripts, folders, queues and notices are the same. Written by tests/cases/events.py, a model from RFC 5804, RFC 5228 and RFC 5230
# that knows nothing of the program. The words are those of sessions.cases; world is a new store without accounts."""

if __name__ == "__main__":
    main()
