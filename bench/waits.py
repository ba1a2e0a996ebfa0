#!/usr/bin/env python3
"""Times what people wait for beside its peers, and prints the table of docs/PERFORMANCE.md.

  bench/waits.py [SIEVED [PART ..]]     SIEVED: the program, crates/sieved/out/sieved where none is named; PART: rules, try, deliver, login

rules: scripts of 50, 200 and 800 rules, none of which matches, on a small message, by `sieved try` and by Pigeonhole's `sieve-test -C`;
whole runs less the run of an empty script, by turns, the least of 40, for each rule. try: a message of 30 MB by both. deliver: one of
30 MB into an empty store, beside `dovecot-lda`. login: a daemon's answer to
AUTHENTICATE, with 10,000 rounds of SHA-256, beside as many of `openssl speed` at 64 octets without the processor's SHA instructions.
It needs root, dovecot-core, dovecot-sieve and openssl; a peer that isn't there is left out.
"""
import base64, os, re, shutil, socket, subprocess, tempfile, time
import measure
from measure import SALT, head, program_of, ran, row, words_of

SIEVED = measure.SIEVED
RUNS = 40
SMALL = b"From: bob@example.net\r\nTo: alice@example.org\r\nSubject: Lunch today\r\nMessage-ID: <m1@example.net>\r\n\r\nHi\r\n"
LARGE = SMALL + (b"x" * 76 + b"\r\n") * (30_000_000 // 78)
DOVECOT = """mail_location = maildir:{room}/mail
postmaster_address = postmaster@example.org
log_path = /dev/null
mail_uid = nobody
mail_gid = nogroup
first_valid_uid = 1
userdb {{
  driver = static
  args = uid=nobody gid=nogroup home={room}
}}
protocol lda {{
  mail_plugins = sieve
}}
plugin {{
  sieve = {room}/empty.sieve
}}
"""


def by_turns(calls, runs=RUNS):
    """The least of some runs of each, by turns, in milliseconds."""
    took = [[call() for call in calls] for _ in range(runs)]
    return [min(each) for each in zip(*took)]


def rules(count):
    """A script of so many rules, half of which look at one field and half at two."""
    fields = ['"subject"', '["subject", "x-spam"]']
    lines = [f'if header :contains {fields[at % 2]} "word{at}" {{ fileinto "folder{at}"; }}' for at in range(count)]
    return ('require "fileinto";\n' + "\n".join(lines) + "\n").encode()


class Room:
    """Files of scripts and messages, and what runs a script on a message by either."""

    def __init__(self, room):
        self.room = room
        os.chmod(room, 0o777)
        self.write("dovecot.conf", DOVECOT.format(room=room).encode())
        self.write("empty.sieve", b"keep;\n")
        self.write("small.eml", SMALL)
        self.write("large.eml", LARGE)
        self.env = {**os.environ, "USER": "nobody", "HOME": room}

    def write(self, name, octets):
        with open(f"{self.room}/{name}", "wb") as file:
            file.write(octets)
        os.chmod(f"{self.room}/{name}", 0o644)

    def by_sieved(self, script, message):
        text = open(f"{self.room}/{script}", "rb").read()
        self.write("given", b"%d\n" % len(text) + text + open(f"{self.room}/{message}", "rb").read())
        os.rename(f"{self.room}/given", f"{self.room}/{script}-{message}")
        return lambda: self.opened(f"{script}-{message}", [SIEVED, "try"])

    def opened(self, name, words):
        with open(f"{self.room}/{name}", "rb") as given:
            return ran(words, given).ms

    def by_sieve_test(self, script, message):
        words = ["sieve-test", "-C", "-c", f"{self.room}/dovecot.conf", f"{self.room}/{script}", f"{self.room}/{message}"]
        return lambda: ran(words, env=self.env).ms


def part_rules(room):
    for count in 50, 200, 800:
        room.write("rules.sieve", rules(count))
        calls = [room.by_sieved("rules.sieve", "small.eml"), room.by_sieved("empty.sieve", "small.eml")]
        peer = shutil.which("sieve-test")
        calls += [room.by_sieve_test("rules.sieve", "small.eml"), room.by_sieve_test("empty.sieve", "small.eml")] if peer else []
        took = by_turns(calls)
        each = [(took[at] - took[at + 1]) * 1000 / count for at in range(0, len(took), 2)]
        goal = "1.2 us" if count == 800 else ""
        row(f"a rule of {count}", f"{each[0]:.2f} us", f"sieve-test {each[1]:.2f} us" if peer else "", goal)


def part_try(room):
    peer = shutil.which("sieve-test")
    calls = [room.by_sieved("empty.sieve", "large.eml")] + ([room.by_sieve_test("empty.sieve", "large.eml")] if peer else [])
    took = by_turns(calls, 15)
    row("`try` of 30 MB", f"{took[0]:.1f} ms", f"sieve-test {took[1]:.1f} ms" if peer else "", "15 ms")


def part_deliver(room):
    def ours():
        for name in os.listdir(room.room):
            if name.startswith("mail.db"):
                os.remove(f"{room.room}/{name}")
        ran([SIEVED, "init", "--db", f"{room.room}/mail.db"])
        room.write("password", b"secret\n")
        room.opened("password", [SIEVED, "adduser", "--db", f"{room.room}/mail.db", "--salt", SALT, "alice", "alice@example.org"])
        return room.opened("large.eml", [SIEVED, "deliver", "--db", f"{room.room}/mail.db", "--to", "alice@example.org", "alice"])

    def theirs():
        shutil.rmtree(f"{room.room}/mail", ignore_errors=True)
        with open(f"{room.room}/large.eml", "rb") as given:
            return ran(["setpriv", "--reuid=nobody", "--regid=nogroup", "--clear-groups", peer, "-c", f"{room.room}/dovecot.conf", "-f", "bob@example.net"], given, env=room.env).ms

    peer = "/usr/lib/dovecot/dovecot-lda"
    calls = [ours] + ([theirs] if os.path.exists(peer) else [])
    took = by_turns(calls, 10)
    row("`deliver` of 30 MB into an empty store", f"{took[0]:.0f} ms", f"dovecot-lda {took[1]:.0f} ms" if len(took) > 1 else "", "150 ms")


def answer(lines):
    """Reads up to the line that ends an answer."""
    while not lines.readline().startswith((b"OK", b"NO", b"BYE")):
        pass


def logged_in(port):
    """How long a login takes that a daemon answers, in milliseconds."""
    login = base64.b64encode(b"\0alice\0secret").decode()
    with socket.create_connection(("127.0.0.1", port), timeout=20) as client, client.makefile("rb") as lines:
        answer(lines)
        began = time.perf_counter()
        client.sendall(f'AUTHENTICATE "PLAIN" "{login}"\r\n'.encode())
        answer(lines)
        return (time.perf_counter() - began) * 1000


def part_login(room):
    ran([SIEVED, "init", "--db", f"{room.room}/login.db"])
    room.write("password", b"secret\n")
    room.opened("password", [SIEVED, "adduser", "--db", f"{room.room}/login.db", "--salt", SALT, "alice", "alice@example.org"])
    words = [SIEVED, "daemon", "--db", f"{room.room}/login.db", "--managesieve", "0", "--quiet"]
    daemon = subprocess.Popen(words, stdout=subprocess.PIPE, stderr=subprocess.DEVNULL)
    port = int(daemon.stdout.readline().rsplit(b":", 1)[1])
    ours, theirs, goal = min(logged_in(port) for _ in range(30)), "", ""
    daemon.kill()
    daemon.wait()
    if shutil.which("openssl"):
        env = {**os.environ, "OPENSSL_ia32cap": ":~0x20000000"}
        done = subprocess.run(["openssl", "speed", "-evp", "sha256", "-bytes", "64", "-seconds", "2"], capture_output=True, text=True, env=env)
        rate = float(re.findall(r"([\d.]+)k\s*$", done.stdout, re.M)[-1]) * 1000 / 64
        theirs, goal = f"openssl {10_000 / rate * 1000:.2f} ms", f"{1.5 * 10_000 / rate * 1000:.2f} ms"
    row("a login", f"{ours:.2f} ms", theirs, goal)


def main():
    global SIEVED
    SIEVED, words = program_of(words_of(__doc__))
    parts = {"rules": part_rules, "try": part_try, "deliver": part_deliver, "login": part_login}
    head("What", "sieved", "beside it", "goal")
    with tempfile.TemporaryDirectory() as folder:
        room = Room(folder)
        for name in words or parts:
            parts[name](room)


if __name__ == "__main__":
    main()
