#!/usr/bin/env python3
"""Sets Dovecot up by the lines of docs/OPERATING.md, and tries it as the proxy of ManageSieve and as the IMAP server of drained mail.

  tests/proxy.py [--sieved SIEVED] [TRIAL ..]       SIEVED: the program, crates/sieved/out/sieved where none is named

Prints a line for each trial, a last one that counts them, and ends with 1 where one failed. `tests/run` runs it. It needs root, openssl
and Debian's dovecot-imapd and dovecot-managesieved, else its trials are left out. Dovecot's files are in a folder that goes with the trial,
its ports on the loopback address.
"""
import base64, imaplib, os, random, re, shutil, socket, socketserver, ssl, subprocess, tempfile, threading, time
import managesieve, scripts, trials
from contextlib import contextmanager
from lmtp import Peer, greet
from postfix import free_port, wait_for

OPERATING = f"{scripts.DOCS}/OPERATING.md"
MORE = """
base_dir = {room}/run
state_dir = {room}/run
log_path = {room}/log
listen = 127.0.0.1
service imap-login {{
  inet_listener imap {{
    port = {imap}
  }}
  inet_listener imaps {{
    port = 0
  }}
}}
"""


class Backend(socketserver.ThreadingTCPServer):
    """Starts a session of the program for each connection, as sieved.socket does."""

    allow_reuse_address = daemon_threads = True

    def __init__(self, program, file):
        self.command = [program, "session", "--db", file, "--wait"]
        super().__init__(("127.0.0.1", 0), Session)
        self.port = self.server_address[1]
        threading.Thread(target=self.serve_forever, daemon=True).start()


class Session(socketserver.BaseRequestHandler):
    def handle(self):
        subprocess.run(self.server.command, stdin=self.request, stdout=self.request, stderr=subprocess.DEVNULL)


class Daemon:
    """The program as `daemon`, which serves all clients of a store."""

    def __init__(self, program, file):
        self.command = [program, "daemon", "--db", file, "--managesieve", "0"]
        self.process = subprocess.Popen(self.command, stdout=subprocess.PIPE, stderr=subprocess.DEVNULL)
        self.port = int(self.process.stdout.readline().rsplit(b":", 1)[1])

    def stop(self):
        self.process.kill()
        self.process.wait()
        self.process.stdout.close()


def block(begin, end):
    """The indented lines of the page from one that begins so to the last one before a line of text that begins so."""
    with open(OPERATING) as file:
        text = file.read()
    lines = text[text.index(f"\n    {begin}") + 1:]
    return "".join(line[4:] + "\n" for line in lines[:lines.index(f"\n{end}")].split("\n") if line.startswith("    ") or not line)


class Host:
    """Dovecot in front of a store."""

    def __init__(self, room, separator="."):
        self.room, self.port, self.imap = room, free_port(), free_port()
        os.chmod(room, 0o755)
        for name in "run", "var", "var/mail":
            os.mkdir(f"{room}/{name}")
        shutil.chown(f"{room}/var/mail", "nobody", "nogroup")
        subprocess.run(["openssl", "req", "-x509", "-newkey", "rsa:2048", "-nodes", "-keyout", f"{room}/key", "-out", f"{room}/cert", "-days", "2",
                        "-subj", "/CN=localhost"], capture_output=True, check=True)
        self.store = self.make_store("mail")
        conf = self.ours(block("protocols = imap sieve", "`%s` is the service"))
        conf = conf.replace("</etc/ssl/certs/ssl-cert-snakeoil.pem", f"<{room}/cert").replace("</etc/ssl/private/ssl-cert-snakeoil.key", f"<{room}/key")
        conf = conf.replace("port = 4190", f"port = {self.port}").replace("= sieved\n", "= nobody\n").replace("mail_gid = nobody", "mail_gid = nogroup")
        conf = conf.replace("uid=sieved gid=sieved", "uid=nobody gid=nogroup").replace("separator = .", f"separator = {separator}")
        with open(f"{room}/dovecot.conf", "w") as file:
            file.write(conf + MORE.format(room=room, imap=self.imap))
        subprocess.run(["dovecot", "-c", f"{room}/dovecot.conf"], check=True, stdin=subprocess.DEVNULL, stdout=subprocess.DEVNULL, stderr=subprocess.DEVNULL)
        wait_for(lambda: listens(self.port) and listens(self.imap), "a listener")

    def ours(self, text):
        """A text of the page over the files of this host."""
        return text.replace("/etc/dovecot/", f"{self.room}/").replace("/var/lib/sieved/", f"{self.room}/var/")

    def make_store(self, name, kind=Backend):
        file = f"{self.room}/var/{name}.db"
        subprocess.run([scripts.PROGRAM[0], "init", "--db", file], check=True, capture_output=True)
        return kind(scripts.PROGRAM[0], file)

    def add_user(self, user, backend, password):
        """By the page's lines."""
        lines = self.ours(block("touch /etc/dovecot/users.imap", "A user has") + block("secret=$(openssl", "- **sieved's own password"))
        lines = lines[:lines.index("printf '%s lmtp:")].rstrip().removesuffix("&&").replace("| sieved adduser", f"| {scripts.PROGRAM[0]} adduser")
        lines = lines.replace("port=4191", f"port={backend.port}")
        told = {"PASSWORD": password, "user": user, "SIEVED_DB": backend.command[3]}
        subprocess.run(["sh", "-e", "-c", lines], env={**os.environ, **told}, check=True, capture_output=True)
        with open(f"{self.room}/users.sieve") as file:
            return file.read().rsplit("pass=", 1)[1].strip()

    def client(self):
        """A client from another address than the server's, greeted."""
        sock = socket.create_connection(("127.0.0.1", self.port), timeout=60, source_address=("127.0.0.2", 0))
        client = managesieve.Client(sock.makefile("rb"), sock.makefile("wb", buffering=0), sock)
        client.greeting = client.reply()
        return client

    def secured(self):
        """A client that has made TLS, told the capabilities again."""
        client = self.client()
        assert b'"STARTTLS"\r\n' in client.greeting, client.greeting
        assert client.ask(b"STARTTLS")[-1].startswith(b"OK")
        context = ssl.create_default_context()
        context.check_hostname, context.verify_mode = False, ssl.CERT_NONE
        sock = context.wrap_socket(client.sock)
        client = managesieve.Client(sock.makefile("rb"), sock.makefile("wb", buffering=0), sock)
        client.greeting = client.reply()
        return client

    def imap_client(self, user, password):
        client = imaplib.IMAP4("127.0.0.1", self.imap)
        context = ssl.create_default_context()
        context.check_hostname, context.verify_mode = False, ssl.CERT_NONE
        client.starttls(context)
        client.login(user, password)
        return client

    def stop(self):
        subprocess.run(["doveadm", "-c", f"{self.room}/dovecot.conf", "stop"], capture_output=True)


def listens(port):
    try:
        socket.create_connection(("127.0.0.1", port), timeout=5).close()
        return True
    except OSError:
        return False


def log_in(client, user, password):
    return client.ask(b'AUTHENTICATE "PLAIN" "' + base64.b64encode(f"\0{user}\0{password}".encode()) + b'"')[-1]


@contextmanager
def a_host(separator="."):
    trials.need_root()
    trials.need("dovecot", "doveadm", "openssl")
    if not os.path.exists("/usr/lib/dovecot/managesieve-login"):
        raise trials.LeftOut("no dovecot-managesieved")
    with tempfile.TemporaryDirectory(prefix="sieved-proxy-") as room:
        host = Host(room, separator)
        try:
            yield host
        finally:
            host.stop()


def log_ins():
    with a_host() as host:
        secret = host.add_user("alice", host.store, "human")
        assert re.fullmatch("[0-9a-f]{32}", secret), secret
        refused = log_in(host.client(), "alice", "human")
        assert refused.startswith(b"NO (ENCRYPT-NEEDED)"), refused
        client = host.secured()
        assert log_in(client, "ALICE", "human") == b'OK "Logged in."\r\n'
        named = {line for line in client.ask(b"CAPABILITY") if line.startswith((b'"SIEVE"', b'"IMPLEMENTATION"'))}
        assert len(named) == 2 and named <= {*client.greeting}, (named, client.greeting)
        assert client.put(b"m", b"keep;").startswith(b"OK") and client.get(b"m") == b"keep;"
        assert client.ask(b"UNAUTHENTICATE")[-1].startswith(b"OK")
        assert log_in(client, "alice", "human").startswith(b"NO") and log_in(client, "alice", secret).startswith(b"OK")
        client, times = host.secured(), []
        for _ in range(2):
            began = time.time()
            assert log_in(client, "alice", secret).startswith(b"NO")
            times.append(time.time() - began)
        assert times[0] > 1 and times[1] > times[0], times
    return f"STARTTLS is asked for; the user's password serves at Dovecot and not behind it; wrong ones wait {times[0]:.1f} and {times[1]:.1f} s"


def two_stores():
    with a_host() as host:
        second = host.make_store("two")
        host.add_user("alice", host.store, "human")
        host.add_user("carol", second, "other")
        for user, password in ("alice", "human"), ("carol", "other"):
            client = host.secured()
            assert log_in(client, user, password).startswith(b"OK")
            assert client.put(user.encode(), b"keep;").startswith(b"OK")
            assert client.ask(b"LISTSCRIPTS")[:-1] == [b'"%s"\r\n' % user.encode()]
        assert log_in(host.secured(), "Carol@example.org", "other").startswith(b"OK")
        listed = subprocess.run(["doveadm", "-c", f"{host.room}/dovecot.conf", "user", "*"], capture_output=True, text=True).stdout.split()
        assert listed == ["alice", "carol"], listed
    return "each user reaches the store of the own line, also by an address, and doveadm lists them"


def over_the_daemon():
    """Twenty users behind the proxy at once, each over TLS, with a daemon behind it; wrong passwords wait at Dovecot and hold nobody up."""
    with a_host() as host:
        second = host.make_store("two", Daemon)
        try:
            users = [f"u{n}" for n in range(20)]
            for user in users:
                host.add_user(user, second, "human")
            clients = [host.secured() for _ in users]
            guesser = host.secured()
            guesser.send(b'AUTHENTICATE "PLAIN" "' + base64.b64encode(b"\0u0\0wrong") + b'"\r\n')
            for user, client in zip(users, clients):
                assert log_in(client, user, "human").startswith(b"OK"), user
                assert client.put(b"m", b"# %s\r\nkeep;" % user.encode()).startswith(b"OK")
            assert guesser.reply()[-1].startswith(b"NO")
            times = []
            for _ in range(20):
                for user, client in zip(users, clients):
                    began = time.time()
                    assert client.get(b"m") == b"# %s\r\nkeep;" % user.encode()
                    times.append(time.time() - began)
            for client in clients:
                assert client.ask(b"LOGOUT")[-1].startswith(b"OK")
        finally:
            second.stop()
    return f"{len(users)} users, each over TLS, read their own scripts; a round trip takes {1000 * sorted(times)[len(times) // 2]:.1f} ms"


def folders():
    """Each folder that the script makes is listed and subscribed, under the name that its user means."""
    trials.need("flock")
    names = {".": {"Sent Items", "work/x", "INBOX.Junk", "Gr&APYA3w-e", " lists", "trail ", "a 1 b 1", "-n", "a\\b", "R&-D", "$(id)`id`;*", "lists"},
             "/": {"Sent Items", "work/x", "INBOX.Junk", "Gr&APYA3w-e", " lists", "trail ", "a 1 b 1", "-n", "a\\b", "R&-D", "$(id)`id`;*", "lists"}}
    for separator in "./":
        with a_host(separator) as host:
            host.add_user("alice", host.store, "human")
            given, messages = scripts.filled(*scripts.FOLDERS)
            status, _, said = given.call("sieved-drain", "alice", SIEVED_MAIL=f"{host.room}/var/mail", SIEVED_SEPARATOR=separator)
            assert (status, said) == (0, b""), said
            subprocess.run(["chown", "-R", "nobody:nogroup", f"{host.room}/var/mail"], check=True)
            client = host.imap_client("alice", "human")
            listed, subscribed = ({name_of(line) for line in answer[1] if b"\\Noselect" not in first_of(line)} for answer in (client.list(), client.lsub()))
            assert names[separator] <= subscribed and names[separator] | {"INBOX"} <= listed, (separator, names[separator] - subscribed, names[separator] - listed)
            for name in names[separator] | {"INBOX"}:
                answer = client.select('"%s"' % name.replace("\\", "\\\\"), readonly=True)
                assert answer == ("OK", [b"1"]), (name, answer)
            client.logout()
    return f"{len(scripts.FOLDERS)} folders by `.` and by `/`: listed, subscribed, each with its message"


def flags():
    """A drained message has the system flags that its script set, and no other."""
    trials.need("flock")
    names = {"D": rb"\Draft", "F": rb"\Flagged", "R": rb"\Answered", "S": rb"\Seen", "T": rb"\Deleted"}
    with a_host() as host:
        host.add_user("alice", host.store, "human")
        given, messages = scripts.flagged()
        status, _, said = given.call("sieved-drain", "alice", SIEVED_MAIL=f"{host.room}/var/mail")
        assert (status, said) == (0, b""), said
        subprocess.run(["chown", "-R", "nobody:nogroup", f"{host.room}/var/mail"], check=True)
        client = host.imap_client("alice", "human")
        for at, letters in enumerate(scripts.SET.values()):
            assert client.select(f"f{at}", readonly=True) == ("OK", [b"1"]), at
            ((told, octets), more) = client.fetch("1", "(FLAGS BODY.PEEK[])")[1]
            found = {*imaplib.ParseFlags(told), *imaplib.ParseFlags(more)} - {rb"\Recent"}
            assert found == {names[letter] for letter in letters or ""} and octets == messages[at], (at, told, more)
        client.logout()
    return f"{len(messages)} messages: Dovecot tells the flags that were set"


def other_disk():
    """What the full disk's recipe has moved elsewhere comes back into the user's own folders, by the page's line."""
    trials.need("flock")
    with a_host() as host, open(OPERATING) as file:
        line = re.search(r"\n    (doveadm import .* alice .*)", file.read())[1]
        host.add_user("alice", host.store, "human")
        given, messages = scripts.filled(*scripts.FOLDERS)
        assert given.call("sieved-drain", "alice", SIEVED_MAIL=f"{host.room}/mnt")[0] == 0
        assert given.deliver("--no-drain", "--to", "alice@example.org", "alice", data=messages["lists"])[0] == 0
        assert given.call("sieved-drain", "alice", SIEVED_MAIL=f"{host.room}/var/mail")[0] == 0
        (file,) = os.listdir(f"{host.room}/mnt/alice/new")
        seen = f"{host.room}/mnt/alice/cur/{file}:2,S"
        os.rename(f"{host.room}/mnt/alice/new/{file}", seen)
        os.utime(seen, (1_000_000_000,) * 2)
        subprocess.run(["chown", "-R", "nobody:nogroup", f"{host.room}/mnt", f"{host.room}/var/mail"], check=True)
        line = line.replace("doveadm ", f"doveadm -c {host.room}/dovecot.conf ").replace("/mnt/room/mail/", f"{host.room}/mnt/")
        done = subprocess.run(["sh", "-e", "-c", line], capture_output=True)
        assert (done.returncode, done.stderr) == (0, b"") and not os.listdir(f"{host.room}/mnt"), done
        client = host.imap_client("alice", "human")
        counts = {name: 1 for name in map(name_of, client.lsub()[1])}
        assert len(counts) == len(scripts.FOLDERS) and "work/x" in counts, counts
        for name in counts:
            answer = client.select('"%s"' % name.replace("\\", "\\\\"), readonly=True)
            assert answer == ("OK", [b"2" if name == "lists" else b"1"]), (name, answer)
        client.select("INBOX", readonly=True)
        told = client.fetch("1", "(FLAGS INTERNALDATE)")[1][0]
        assert b"\\Seen" in told and imaplib.Internaldate2tuple(told) == time.localtime(1_000_000_000), told
        client.logout()
    return f"{len(counts)} folders, one of them there already: each message is in its folder, with its date and flags, each folder subscribed"


class Mover:
    """A daemon that moves a user's mail into the Maildir that Dovecot shows, with two clients that deliver; each message has a token."""

    def __init__(self, host):
        self.file, self.root, self.sent, self.seen, self.ends = host.store.command[3], f"{host.room}/var/mail/alice", [], {}, False
        lmtp, words = free_port(), [scripts.PROGRAM[0], "put", "--db", self.file, "--activate", "alice", "m"]
        subprocess.run(words, input=MOVED, check=True, capture_output=True)
        subprocess.run(["chown", "-R", "nobody:nogroup", f"{host.room}/var"], check=True)
        words = [scripts.PROGRAM[0], "daemon", "--db", self.file, "--lmtp", str(lmtp), "--mail", f"{host.room}/var/mail", "--quiet"]
        self.process = subprocess.Popen(words, stdin=subprocess.DEVNULL, stdout=subprocess.DEVNULL, stderr=subprocess.DEVNULL, user="nobody", group="nogroup")
        wait_for(lambda: listens(lmtp), "the daemon")
        self.senders = [threading.Thread(target=self.send, args=(lmtp, at), daemon=True) for at in range(2)]
        for sender in self.senders:
            sender.start()

    def send(self, port, at):
        peer = Peer(port)
        greet(peer)
        while not self.ends:
            token = f"{at}x{len(self.sent)}x{time.monotonic_ns()}"
            (told,) = peer.deliver(f"Subject: f{len(self.sent) % FOLDERS}\r\nX-Token: {token}\r\n\r\nHi\r\n".encode(), b"alice@example.org")
            assert told.startswith(b"250"), told
            self.sent.append(token)
            time.sleep(0.002)
        peer.close()

    def look(self, place, gone=False):
        """Notes the messages that stand in a Maildir; those of one that goes are counted once and for all."""
        found = []
        for part in "new", "cur":
            for name in os.listdir(f"{place}/{part}") if os.path.isdir(f"{place}/{part}") else []:
                with open(f"{place}/{part}/{name}", "rb") as file:
                    found.append(re.search(rb"X-Token: (\S+)", file.read())[1].decode())
        for token in found if gone else []:
            self.seen[token] = self.seen.get(token, 0) + 1
        return found

    def stop(self):
        """How often each message that was answered stands somewhere once all has moved."""
        self.ends = True
        for sender in self.senders:
            sender.join()
        def all_moved():
            counts = dict(self.seen)
            for place in [self.root, *(entry.path for entry in os.scandir(self.root) if entry.name.startswith(".") and entry.is_dir())]:
                for token in self.look(place):
                    counts[token] = counts.get(token, 0) + 1
            return counts if all(token in counts for token in self.sent) else None
        wait_for(all_moved, "mail that moves", 120)
        return all_moved()

    def kill(self):
        self.process.kill()
        self.process.wait()


FOLDERS = 4
MOVED = b'require "fileinto";' + b"".join(b'if header :is "subject" "f%d" { fileinto "f%d"; stop; }' % (at, at) for at in range(FOLDERS))


def changing_folders():
    """Folders are renamed, deleted and made by IMAP while mail moves into them: each message that was answered is there, or was when its
    folder went."""
    with a_host() as host:
        host.add_user("alice", host.store, "human")
        mover, draw, count = Mover(host), random.Random(7), trials.some(2000)
        try:
            client, did = host.imap_client("alice", "human"), {"renamed": 0, "deleted": 0, "made": 0}
            for at in range(count):
                folder = f"f{draw.randrange(FOLDERS)}"
                if draw.random() < 0.3:
                    did["made"] += client.create(folder)[0] == "OK"
                    continue
                if client.rename(folder, f"g{at}")[0] != "OK":
                    continue
                did["renamed"] += 1
                if draw.random() < 0.7:
                    mover.look(f"{mover.root}/.g{at}", gone=True)
                    assert client.delete(f"g{at}")[0] == "OK"
                    did["deleted"] += 1
            client.logout()
            counts = mover.stop()
        finally:
            mover.kill()
        twice = sum(number - 1 for number in counts.values() if number > 1)
        assert twice <= 64 * did["renamed"], (twice, did)
    done = ", ".join(f"{number} {word}" for word, number in did.items())
    return f"{done}: each of {len(mover.sent)} messages is there, {twice} of them once more"


def first_of(line):
    return line[0] if isinstance(line, tuple) else line


def name_of(line):
    """The mailbox of a line of LIST or LSUB."""
    if isinstance(line, tuple):
        return line[1].decode()
    name = re.fullmatch(rb'\(.*?\) (?:"."|NIL) (.*)', line)[1].decode()
    return re.sub(r"\\(.)", r"\1", name[1:-1]) if name.startswith('"') else name


TRIALS = {trial.__name__: trial for trial in (log_ins, two_stores, over_the_daemon, folders, flags, other_disk, changing_folders)}

if __name__ == "__main__":
    trials.main(TRIALS, lambda program: scripts.PROGRAM.__setitem__(0, program))
