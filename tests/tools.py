#!/usr/bin/env python3
"""Runs the lines of docs/DOVECOT.md: what Dovecot and Pigeonhole bring, on mail that the daemon has moved into Maildirs.

  tests/tools.py [--sieved SIEVED] [TRIAL ..]       SIEVED: the program, crates/sieved/out/sieved where none is named

Prints a line for each trial, a last one that counts them, and ends with 1 where one failed. `tests/run` runs it. It needs root, openssl
and Debian's dovecot-imapd, dovecot-managesieved and dovecot-sieve, else its trials are left out. Dovecot is set up as proxy.py does it.
"""
import os, re, socket, subprocess
import scripts, trials
from contextlib import contextmanager
from lmtp import Peer, greet
from postfix import free_port, wait_for
from proxy import a_host, listens

PAGE = f"{scripts.DOCS}/DOVECOT.md"
RULES = b'require "fileinto";\r\nif header :contains "subject" "[list]" { fileinto "lists"; }\r\n'


def lines_of(begin):
    """The indented lines of the page from one that begins so to the next line of text."""
    with open(PAGE) as file:
        text = file.read()
    rest = text[text.index(f"\n    {begin}") + 1:].split("\n")
    end = next(at for at, line in enumerate(rest) if line and not line.startswith("    "))
    return "".join(line[4:] + "\n" for line in rest[:end])


class Tools:
    """Dovecot with some of the page's lines, and a daemon that moves alice's mail."""

    def __init__(self, host, lines=""):
        self.host, self.conf, self.lmtp = host, f"{host.room}/dovecot.conf", free_port()
        host.add_user("alice", host.store, "human")
        self.put(RULES)
        subprocess.run(["chown", "-R", "nobody:nogroup", f"{host.room}/var"], check=True)
        with open(self.conf, "a") as file:
            file.write(lines.replace("/etc/dovecot/", f"{host.room}/"))
        host.stop()
        wait_for(lambda: not listens(host.imap), "Dovecot's end")
        subprocess.run(["dovecot", "-c", self.conf], check=True, stdin=subprocess.DEVNULL, stdout=subprocess.DEVNULL, stderr=subprocess.DEVNULL)
        wait_for(lambda: listens(host.imap), "a listener")
        words = [scripts.PROGRAM[0], "daemon", "--db", host.store.command[3], "--lmtp", str(self.lmtp), "--mail", f"{host.room}/var/mail", "--quiet"]
        self.process = subprocess.Popen(words, stdin=subprocess.DEVNULL, stdout=subprocess.DEVNULL, stderr=subprocess.DEVNULL, user="nobody", group="nogroup")
        wait_for(lambda: listens(self.lmtp), "the daemon")

    def put(self, text):
        words = [scripts.PROGRAM[0], "put", "--db", self.host.store.command[3], "--wait", "--activate", "alice", "main"]
        subprocess.run(words, input=text, check=True, capture_output=True)

    def deliver(self, subject, size=0):
        peer = Peer(self.lmtp)
        greet(peer)
        (said,) = peer.deliver(b"Subject: %s\r\n\r\n" % subject + (b"x" * 70 + b"\r\n") * (size // 72), b"alice@example.org")
        peer.close()
        assert said.startswith(b"250"), said

    def run(self, line, **more):
        """A line of the page, over this host's files."""
        line = re.sub(r"\b(doveadm|sieve-filter|sieve-test)\b", rf"\1 -c {self.conf}", line)
        done = subprocess.run(["sh", "-e", "-c", line], capture_output=True, timeout=60, **more)
        assert done.returncode == 0, (line, done.stdout, done.stderr)
        return (done.stdout + done.stderr).decode()

    def count(self, folder):
        """How many messages Dovecot shows in a folder."""
        said = self.run(f"doveadm mailbox status -u alice messages {folder}")
        return int(re.search(r"messages=(\d+)", said)[1])

    def stop(self):
        self.process.kill()
        self.process.wait()


@contextmanager
def tools(lines=""):
    if not os.path.exists("/usr/bin/sieve-filter"):
        raise trials.LeftOut("no dovecot-sieve")
    with a_host() as host:
        running = Tools(host, lines)
        try:
            yield running
        finally:
            running.stop()


def asked(port, recipient, size):
    """What Dovecot tells Postfix of a recipient."""
    with socket.create_connection(("127.0.0.1", port), timeout=20) as sock:
        sock.sendall(f"request=smtpd_access_policy\nprotocol_state=RCPT\nrecipient={recipient}\nsize={size}\n\n".encode())
        return sock.makefile("rb").readline().decode().rstrip("\n")


def quota():
    port = free_port()
    lines = lines_of("mail_plugins = listescape quota").replace("12340", str(port)).replace("storage=1G", "storage=200k")
    with tools(lines) as running:
        wait_for(lambda: listens(port), "quota-status")
        said = [asked(port, "alice@example.org", 1000)]
        for _ in range(3):
            running.deliver(b"hello", 60_000)
        wait_for(lambda: running.count("INBOX") == 3, "mail that moves")
        said += [asked(port, "alice@example.org", 100), asked(port, "alice@example.org", 60_000), asked(port, "nobody@example.org", 100)]
    assert said == ["action=DUNNO", "action=DUNNO", "action=552 5.2.2 Mailbox is full", "action=DUNNO"], said
    return "three messages of 60 kB have room in 200 kB, and a fourth is refused at RCPT"


def filtered():
    with tools() as running, open(PAGE) as page:
        lines = re.findall(r"\n    ((?:sieve-filter|doveadm mailbox create) .*)", page.read())
        running.put(b"keep;\r\n")
        for subject in b"[list] one", b"two", b"[list] three":
            running.deliver(subject)
        wait_for(lambda: running.count("INBOX") == 3, "mail that moves")
        place = f"{running.host.room}/var/main.sieve"
        with open(place, "wb") as file:
            file.write(RULES)
        subprocess.run(["chown", "nobody:nogroup", place], check=True)
        counts = []
        for line in lines:
            running.run(line.replace("/etc/sieved/filter.sieve", place))
            counts.append(running.count("INBOX"))
        assert counts == [3, 3, 1] and running.count("lists") == 2, counts
    return "two of three messages are filed, once it is asked for"


def learned():
    lines = lines_of("protocol imap {")
    script = lines_of('require ["vnd.dovecot.pipe"')
    with tools(lines) as running:
        room = running.host.room
        os.mkdir(f"{room}/pipe")
        with open(f"{room}/learn-spam.sieve", "w") as file:
            file.write(script)
        with open(f"{room}/pipe/learn-spam", "w") as file:
            file.write(f"#!/bin/sh\ncat >> {room}/var/mail/learned\n")
        os.chmod(f"{room}/pipe/learn-spam", 0o755)
        running.run(f"sievec -c {running.conf} {room}/learn-spam.sieve")
        running.deliver(b"win")
        wait_for(lambda: running.count("INBOX") == 1, "mail that moves")
        client = running.host.imap_client("alice", "human")
        client.create("Junk")
        client.select("INBOX")
        assert client.copy("1", "Junk")[0] == "OK"
        client.logout()
        wait_for(lambda: os.path.exists(f"{room}/var/mail/learned"), "what is learned")
        with open(f"{room}/var/mail/learned", "rb") as file:
            assert b"Subject: win" in file.read()
    return "what a client copies into Junk is handed on"


def over_all():
    with tools() as running, open(PAGE) as page:
        line = re.search(r"\n    (doveadm expunge -A .*)", page.read())[1]
        running.put(b'require "fileinto"; fileinto "Junk";\r\n')
        running.deliver(b"old"), running.deliver(b"new")
        wait_for(lambda: running.count("Junk") == 2, "mail that moves")
        running.run(line)
        kept = running.count("Junk")
        assert kept == 2, kept
        # Within the second in which it was seen no message is older than that.
        wait_for(lambda: running.run(line.replace("30d", "0s")) == "" and running.count("Junk") == 0, "mail that is old")
    return "mail of today stays, and goes when it is old"


def explained():
    with tools() as running, open(PAGE) as page:
        line = re.search(r"\n    (sieve-test .*)", page.read())[1]
        place = running.host.room
        for name, text in (("main.sieve", RULES), ("message.eml", b"Subject: [list] x\r\n\r\nHi\r\n")):
            with open(f"{place}/{name}", "wb") as file:
                file.write(text)
        said = running.run(line.replace("/etc/sieved/filter.sieve", f"{place}/main.sieve").replace("message.eml", f"{place}/message.eml"))
        assert "starting `:contains' match" in said and "store message in folder: lists" in said, said
    return "sieve-test tells the match and where the message goes"


TRIALS = {trial.__name__: trial for trial in (quota, filtered, learned, over_all, explained)}

if __name__ == "__main__":
    trials.main(TRIALS, lambda program: scripts.PROGRAM.__setitem__(0, program))
