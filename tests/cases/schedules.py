"""Writes the schedules of crates/test_loops/data/ that are too long to write by hand.

Those of the echo come from its protocol alone: each line is answered by the same line, and one that comes is told `hi`. Those of the
daemon are lives of five clients of ManageSieve and two of LMTP side by side, with what other processes do to the store in between; what
each client must get comes from the model of tests/cases/events.py, which knows nothing of the program, and from RFC 2033."""
import os
import random
import sys

import events

HERE = os.path.dirname(os.path.abspath(__file__))
DATA = os.path.join(HERE, "..", "..", "crates", "test_loops", "data")
LIVES = 40
GUEST = 59_000      # a guest has a minute; one that would be late goes before
SPAN = 2_000        # for so long the answer to a login that failed is kept back
AWAY = 5_000        # for so long the store is asked for
SILENT = 240_000    # a client of LMTP has five minutes; one that would be late goes before
BEGIN = 1_700_000_000_000
LHLO = "250-localhost 250-PIPELINING 250-SIZE_33552232 250-8BITMIME 250-SMTPUTF8 250_ENHANCEDSTATUSCODES"


def text(octets):
    """Octets as a schedule writes them."""
    return '"' + "".join({13: "\\r", 10: "\\n", 34: '\\"', 92: "\\\\"}.get(o, chr(o) if 31 < o < 127 else f"\\x{o:02x}") for o in octets) + '"'


def sixty():
    """Sixty clients, each of whom says two lines, in an order that mixes them."""
    yield "# Sixty clients side by side; written by tests/cases/schedules.py."
    names = [f"c{n}" for n in range(1, 61)]
    for name in names:
        yield f"{name} comes 1"
    for name in reversed(names):
        yield f"{name} says {text(f'{name} sa'.encode())}"
    yield "pause"
    for at in range(60):
        name = names[at * 7 % 60]
        yield f"{name} says {text(f'ys{chr(13)}{chr(10)}{name} again{chr(13)}{chr(10)}'.encode())}"
    for name in names:
        yield f"{name} has {text(f'hi{chr(13)}{chr(10)}{name} says{chr(13)}{chr(10)}{name} again{chr(13)}{chr(10)}'.encode())}"
    for name in names[::3]:
        yield f"{name} goes"
    for name in names:
        yield f"{name} is {'closed' if name in names[::3] else 'open'}"


def three_hundred():
    """Three hundred lines of one client, cut into pieces of 1 to 13 octets."""
    yield "# Three hundred lines of one client, in pieces of 1 to 13 octets; written by tests/cases/schedules.py."
    yield "a comes 1"
    yield 'a has "hi\\r\\n"'
    said = b"".join(f"line {n} of three hundred\r\n".encode() for n in range(1, 301))
    at, size, heard = 0, 1, b""
    while at < len(said):
        yield f"a says {text(said[at:at + size])}"
        heard += said[at:at + size]
        at += size
        size = size % 13 + 1
        if size == 1:
            whole = heard[:heard.rfind(b"\n") + 1]
            yield f"a has {text(whole)}"
            heard = heard[len(whole):]
    yield f"a has {text(heard)}"


class Client(events.Stream):
    """A client of ManageSieve that logs in, and most of the time puts a script and makes it the active one before all else."""

    def __init__(self, rng, user):
        super().__init__(rng, user)
        script = rng.choice([*events.SCRIPTS, "away", "soon", "seen", "lists"])
        self.first = [("authenticate", (user, events.PASSWORDS[user])), ("putscript", "main", script), ("setactive", "main")] * (rng.random() < 0.8)

    def begin(self):
        """The next command."""
        if not self.first:
            return super().begin()
        self.unit = self.first.pop(0)
        self.rest = events.spelled(self.unit)


class Mail:
    """A client of LMTP, and the transaction that it has open: sender, users with their addresses, message, and what of the text is to come."""

    def __init__(self, name, now):
        self.name, self.heard, self.taken, self.rest = name, now, [], None
        self.sender, self.message = "", {}


class Life:
    """Seven clients of the daemon, with the model beside them, and the entries so far."""

    def __init__(self, seed):
        self.rng, self.now, self.moment, self.count = random.Random(seed), BEGIN, BEGIN // 1000, 0
        self.model = events.Model(["uma", "vic"])
        self.lines, self.names, self.guests, self.streams, self.mails = [], {}, {}, {}, {}
        for user in self.model.accounts:
            self.lines.append(f"@ user {user} {user}@example.org {events.PASSWORDS[user]}")
        self.lines.append(f"clock {self.now}")

    def come(self, number):
        """A client comes, and is greeted."""
        self.count += 1
        self.names[number], self.guests[number] = f"c{self.count}", self.now
        self.streams[number] = Client(self.rng, events.SESSIONS[number])
        self.lines.append(f"{self.names[number]} comes 0")
        self.has(number, self.model.happen(("open", number)))

    def go(self, number):
        """A client sends no more; what it began is lost."""
        name = self.names.pop(number)
        self.lines += [f"{name} goes", f"{name} is closed"]
        self.model.happen(("close", number))

    def has(self, number, answers, ends=False):
        """What a client must have got; where it is the last, it sees that, and goes."""
        said = [line.removesuffix("\r") for line in answers if line not in ("close", "need")]
        self.lines.append(f"{self.names[number]} has " + text("".join(line + "\r\n" for line in said).encode()))
        if ends:
            self.lines.append(f"{self.names[number]} is shut")
            self.go(number)
        elif self.model.sessions[number].user:
            self.guests[number] = self.now

    def wait(self, span):
        """The clock goes on; guests who would be late go before."""
        for number in [n for n in self.names if not self.model.sessions[n].user and self.guests[n] + GUEST <= self.now + span]:
            self.go(number)
        for number in [n for n, mail in self.mails.items() if mail.heard + SILENT <= self.now + span]:
            self.leave(number)
        self.now += span
        self.lines.append(f"clock {self.now}")

    def say(self, number):
        """Octets of a client, and the answers to the commands that end in them."""
        octets, ended = self.streams[number].piece()
        self.lines.append(f"{self.names[number]} says " + text(octets.encode()))
        self.model.happen(("give", number, octets, ended))
        answers = []
        while self.model.sessions[number].units and not self.model.sessions[number].closed:
            later = self.model.happen(("step", number))
            if later[0] in ('NO "Authentication failed."', 'BYE "Too many failures."'):
                self.has(number, answers, False)
                self.guests[number] = self.now
                self.wait(SPAN)
                answers = []
            answers += later
        if ended:
            self.has(number, answers, self.model.sessions[number].closed)

    def put_off(self, number):
        """A command of a client finds no store for five seconds."""
        session, stream = self.model.sessions[number], self.streams[number]
        if stream.rest or session.pending:
            return
        unit = ("listscripts",) if session.user else ("authenticate", (stream.user, events.PASSWORDS[stream.user]))
        octets = events.spelled(unit)
        self.lines += ["@ away", f"{self.names[number]} says " + text(octets.encode()), f"{self.names[number]} has " + text(b"")]
        self.model.happen(("give", number, octets, [unit]))
        self.guests[number] = self.now
        self.wait(AWAY)
        self.has(number, self.model.happen(("giveup", number)))

    def call(self, number):
        """A client of LMTP comes, and says who it is (RFC 2033, 4.1)."""
        self.count += 1
        mail = self.mails[number] = Mail(f"m{self.count}", self.now)
        self.lines += [f"{mail.name} comes 1", f"{mail.name} has " + text(b"220 localhost LMTP\r\n"), f"{mail.name} says " + text(b"LHLO relay\r\n")]
        self.told(mail, [line.replace("_", " ") for line in LHLO.split()])

    def told(self, mail, replies):
        """What a client of LMTP must have got."""
        mail.heard = self.now
        self.lines.append(f"{mail.name} has " + text("".join(line + "\r\n" for line in replies).encode()))

    def leave(self, number):
        """A client of LMTP is gone: a text without its dot is for nobody."""
        name = self.mails.pop(number).name
        self.lines += [f"{name} goes", f"{name} is closed"]

    def begin(self, mail):
        """A transaction, up to the beginning of its text: a reply a recipient, and 354 where one was taken, else 503 (RFC 2033, 4.2)."""
        users = self.rng.choices(["uma", "uma", "vic", "vic", "wes", "nobody"], k=self.rng.choice([1, 1, 2, 3]))
        addresses = [(user, self.rng.choice([f"{user}@example.org"] * 3 + [f"{user.upper()}@example.org", f"{user}+x@example.org"])) for user in users]
        mail.sender = self.rng.choice(["bob@example.net"] * 6 + ["BOB@example.net", "", "owner-x@example.net", "uma@example.org"])
        mail.message = events.chosen_message(self.rng, users[0])
        lines = [f"MAIL FROM:<{mail.sender}>"] + [f"RCPT TO:<{address}>" for _, address in addresses] + ["DATA"]
        mail.taken = [pair for pair in addresses if pair[0] in self.model.accounts]
        replies = ["250 2.1.0 Ok"] + ["250 2.1.5 Ok" if pair in mail.taken else "550 5.1.1 No such user" for pair in addresses]
        replies.append("354 End with a dot on a line of its own" if mail.taken else "503 5.5.1 No recipient")
        self.lines.append(f"{mail.name} says " + text("".join(line + "\r\n" for line in lines).encode()))
        self.told(mail, replies)
        if mail.taken:
            mail.rest = events.octets_of(mail.message) + ".\r\n"
        else:
            self.lines.append(f"{mail.name} says " + text(b"RSET\r\n"))
            self.told(mail, ["250 2.0.0 Ok"])

    def go_on(self, mail):
        """Octets of the text; behind its dot a reply a recipient, and a delivery an account and address (RFC 2033, 4.2)."""
        cut = self.rng.choice([len(mail.rest), len(mail.rest), self.rng.randrange(1, len(mail.rest) + 1), max(1, len(mail.rest) - self.rng.randrange(1, 6))])
        piece, mail.rest = mail.rest[:cut], mail.rest[cut:]
        self.lines.append(f"{mail.name} says " + text(piece.encode()))
        if mail.rest:
            mail.heard = self.now
            return
        reports = {}
        for user, address in mail.taken:
            if (user, address) not in reports:
                message = dict(mail.message, before=f"Return-Path: <{mail.sender}>\r\nDelivered-To: {address}\r\n")
                reports[user, address] = self.model.happen(("deliver", user, mail.sender, message, self.now // 1000))
        self.told(mail, ["250 2.1.5 " + ", ".join(reports[pair]) for pair in mail.taken])
        mail.rest = None

    def bring(self):
        """A client of LMTP comes, begins a transaction, goes on with its text, or is gone."""
        number = self.rng.choice([1, 2])
        mail = self.mails.get(number)
        if mail is None:
            self.call(number)
        elif self.rng.random() < 0.06:
            self.leave(number)
        elif mail.rest is None:
            self.begin(mail)
        else:
            self.go_on(mail)

    def sleep(self):
        """All go, and a day or more passes."""
        for number in [*self.names]:
            self.go(number)
        for number in [*self.mails]:
            self.leave(number)
        self.wait(1000 * events.DAY * self.rng.choice([1, 1, 3, 8]))

    def let_others(self, dice):
        """What other processes do before the store is asked again."""
        user = self.rng.choice(["uma", "vic", "wes"])
        if dice < 0.96:
            self.moment = self.now // 1000 + self.rng.choice([0, 1, 3600, events.DAY, -events.DAY, -3600])
            sender = self.rng.choice(["bob@example.net"] * 6 + ["BOB@example.net", "", f"{user}@example.org"])
            message = events.chosen_message(self.rng, user)
            if message["more"] == events.RECEIVED:
                message["more"] = ""
            self.model.happen(("deliver", user, sender, message, self.moment))
            self.lines.append(f"@ others deliver {user} {self.moment} <{sender}> " + text(events.octets_of(message).encode()))
        elif dice < 0.98:
            self.model.happen(("adduser", user))
            self.lines.append(f"@ others adduser {user} {user}@example.org {events.PASSWORDS[user]}")
        else:
            number = self.rng.randrange(1, 6)
            self.model.happen(("takeout", user, number))
            self.lines.append(f"@ others takeout {user} {number}")

    def happen(self):
        """One of the things that may happen."""
        number, dice = self.rng.choice([*events.SESSIONS]), self.rng.random()
        if dice >= 0.90:
            self.let_others(dice)
        elif dice >= 0.64:
            self.bring()
        elif dice < 0.02:
            self.sleep()
        elif number not in self.names:
            self.come(number)
        elif dice < 0.54:
            self.say(number)
        elif dice < 0.57:
            self.put_off(number)
        elif dice < 0.60:
            self.go(number)
        elif dice < 0.62:
            self.lines += ["@ wanted", "pause"]
        else:
            self.wait(self.rng.choice([10, 20, 3_000]))

    def end(self):
        """Each user looks at the scripts, and what is in the store is counted."""
        for number in [*self.names]:
            self.go(number)
        for number in [*self.mails]:
            self.leave(number)
        for number, user in ((1, "uma"), (3, "vic"), (5, "wes")):
            if user not in self.model.accounts:
                continue
            self.come(number)
            scripts = self.model.accounts[user]["scripts"]
            units = [("authenticate", (user, events.PASSWORDS[user])), ("listscripts",)] + [("getscript", name) for name in sorted(scripts)]
            octets = "".join(map(events.spelled, units))
            self.lines.append(f"{self.names[number]} says " + text(octets.encode()))
            self.model.happen(("give", number, octets, units))
            self.has(number, [line for _ in units for line in self.model.happen(("step", number))])
        self.lines.append("@ told all")
        for user, acc in self.model.accounts.items():
            self.lines += [f"@ filed {user} {len(acc['folders'].get('INBOX', []))}", f"@ queued {user} {len(acc['queue'])}",
                           f"@ noticed {user} {len(acc['notices'])}", f"@ scripts {user} {len(acc['scripts'])}"]


def lives():
    """Forty lives of the daemon, each of eighty happenings."""
    yield ("# Forty lives of the daemon, each with five clients of ManageSieve and two of LMTP side by side and other processes at its store; "
           "written by tests/cases/schedules.py.")
    for seed in range(1, LIVES + 1):
        life = Life(seed)
        for _ in range(80):
            life.happen()
        life.end()
        yield "----"
        yield f"# {seed}"
        yield from life.lines


FILES = {"sixty.schedule": sixty, "three-hundred.schedule": three_hundred, "forty-lives.daemon": lives}


def main():
    """Writes all, or says with `--check` whether they stand as they should."""
    same = True
    for name, made in FILES.items():
        path = os.path.join(DATA, name)
        wanted = "\n".join(made()) + "\n"
        if "--check" in sys.argv:
            with open(path, encoding="ascii") as file:
                same = same and file.read() == wanted
        else:
            with open(path, "w", encoding="ascii") as file:
                file.write(wanted)
    print("the same" if same else "they differ")
    return 0 if same else 1


if __name__ == "__main__":
    sys.exit(main())
