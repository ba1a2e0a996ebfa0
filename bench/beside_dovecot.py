#!/usr/bin/env python3
"""Measures `sieved daemon` beside Dovecot in one run, on one disk, and prints a table of docs/PERFORMANCE.md.

  bench/beside_dovecot.py [--sync MS] [SIEVED]   SIEVED: the program, crates/sieved/out/sieved where none is named
                                                 MS: so many milliseconds more each sync of both takes

It needs root and Debian's dovecot-lmtpd, dovecot-managesieved and dovecot-sieve. Each server has one user with one active script,
which files what has `[list]` in its subject. Dovecot's processes are kept between connections (`service_count = 0`), and its mail
is in a Maildir; sieved's is in its store. Rates are the best of three turns of three seconds each, one server after the other in
each turn. Client and server share the processors; both servers have real-time priority, where the machine gives it.
"""
import os, re, socket, subprocess, sys, tempfile, threading, time
from measure import head, program_of, row, words_of
import managesieve, slow_disk

TURNS, SECONDS = 3, 3.0
SCRIPT = b'require "fileinto";\r\nif header :contains "subject" "[list]" { fileinto "lists"; }\r\n'
LONG = b"# %s\r\n" % (b"x" * 70) * (28_000 // 74)
HEAD = b"From: bob@example.net\r\nTo: alice@example.org\r\nSubject: [list] %d\r\nMessage-ID: <%d@example.net>\r\n\r\n"
BODY = b"The quick brown fox jumps over the lazy dog, and goes on to do so for a while.\r\n" * 100
CONF = """{imported}
protocols = lmtp sieve
listen = 127.0.0.1
ssl = no
auth_username_format = %Ln
disable_plaintext_auth = no
base_dir = {room}/run
state_dir = {room}/run
log_path = {room}/log
mail_location = maildir:{room}/mail/%u
mail_uid = nobody
mail_gid = nogroup
first_valid_uid = 1
first_valid_gid = 1
passdb {{
  driver = static
  args = password=secret
}}
userdb {{
  driver = static
  args = uid=nobody gid=nogroup home={room}/mail/%u
}}
plugin {{
  sieve = file:{room}/mail/%u/sieve;active={room}/mail/%u/active.sieve
}}
protocol lmtp {{
  mail_plugins = sieve
}}
lda_mailbox_autocreate = yes
service lmtp {{
  process_min_avail = 4
  service_count = 0
  inet_listener lmtp {{
    port = {lmtp}
  }}
}}
service managesieve-login {{
  process_min_avail = 1
  service_count = 0
  inet_listener sieve {{
    port = {sieve}
  }}
}}
service managesieve {{
  process_min_avail = 1
  service_count = 0
}}
default_internal_user = nobody
default_login_user = nobody
"""


def free_port():
    with socket.socket() as found:
        found.bind(("127.0.0.1", 0))
        return found.getsockname()[1]


def wait_for(port):
    for _ in range(100):
        try:
            return socket.create_connection(("127.0.0.1", port), timeout=5).close()
        except OSError:
            time.sleep(0.1)
    sys.exit(f"nobody listens on {port}")


def urgent(pid):
    """Real-time priority for a process and those that it will start, where that can be had."""
    subprocess.run(["chrt", "-a", "-f", "-p", "10", str(pid)], stdout=subprocess.DEVNULL, stderr=subprocess.DEVNULL)


class Dovecot:
    name, user = "Dovecot", "alice"

    def __init__(self, room, millis=0):
        self.room, self.lmtp, self.sieve = f"{room}/dovecot", free_port(), free_port()
        os.makedirs(f"{self.room}/mail/alice")
        os.makedirs(f"{self.room}/run")
        for path in room, self.room:
            os.chmod(path, 0o755)
        subprocess.run(["chown", "-R", "nobody:nogroup", f"{self.room}/mail"], check=True)
        conf = f"{self.room}/dovecot.conf"
        with open(conf, "w") as file:
            file.write(CONF.format(room=self.room, lmtp=self.lmtp, sieve=self.sieve, imported=slow_disk.dovecot(millis)))
        self.process = subprocess.Popen(["dovecot", "-F", "-c", conf], stdin=subprocess.DEVNULL, env={**os.environ, **slow_disk.environment(millis)})
        urgent(self.process.pid)
        wait_for(self.lmtp), wait_for(self.sieve)

    def stop(self):
        managesieve.end(self.process)


class Sieved:
    name, user = "sieved", "alice"

    def __init__(self, room, program, millis=0):
        self.room, self.lmtp, self.sieve = f"{room}/sieved", free_port(), free_port()
        os.makedirs(self.room)
        self.file = f"{self.room}/mail.db"
        subprocess.run([program, "init", "--db", self.file], check=True, stdout=subprocess.DEVNULL)
        words = [program, "adduser", "--db", self.file, "--salt", os.urandom(16).hex(), "alice", "alice@example.org"]
        subprocess.run(words, input=b"secret\n", check=True, stdout=subprocess.DEVNULL)
        words = [program, "daemon", "--db", self.file, "--managesieve", str(self.sieve), "--lmtp", str(self.lmtp), "--quiet"]
        env = {**os.environ, **slow_disk.environment(millis)}
        self.process = subprocess.Popen(words, stdin=subprocess.DEVNULL, stdout=subprocess.DEVNULL, stderr=subprocess.DEVNULL, env=env)
        urgent(self.process.pid)
        wait_for(self.lmtp), wait_for(self.sieve)

    def stop(self):
        managesieve.end(self.process)


class Sender:
    """A connection of LMTP (RFC 2033)."""

    def __init__(self, server):
        self.user = server.user
        self.sock = socket.create_connection(("127.0.0.1", server.lmtp), timeout=60)
        self.sock.setsockopt(socket.IPPROTO_TCP, socket.TCP_NODELAY, 1)
        self.lines = self.sock.makefile("rb")
        self.expect(b"220")
        self.say(b"LHLO localhost\r\n", b"250")

    def expect(self, code):
        while True:
            line = self.lines.readline()
            if not line.startswith(code):
                raise Exception(f"{line!r} for {code!r}")
            if line[3:4] != b"-":
                return line

    def say(self, octets, *codes):
        self.sock.sendall(octets)
        for code in codes:
            self.expect(code)

    def deliver(self, number):
        self.begin(number)
        self.end()

    def begin(self, number):
        """Sends all that precedes a message."""
        self.say(b"MAIL FROM:<bob@example.net>\r\nRCPT TO:<%s@example.org>\r\nDATA\r\n" % self.user.encode(), b"250", b"250", b"354")
        self.text = HEAD % (number, number) + BODY

    def end(self):
        self.say(self.text + b".\r\n", b"250")


def deliveries(server, connections):
    """Deliveries a second over so many connections."""
    senders = [Sender(server) for _ in range(connections)]
    counts, end = [0] * connections, time.perf_counter() + SECONDS

    def work(at):
        while time.perf_counter() < end:
            senders[at].deliver(at * 1_000_000 + counts[at])
            counts[at] += 1

    began = time.perf_counter()
    threads = [threading.Thread(target=work, args=(at,)) for at in range(connections)]
    for thread in threads:
        thread.start()
    for thread in threads:
        thread.join()
    spent = time.perf_counter() - began
    for sender in senders:
        sender.sock.close()
    return sum(counts) / spent


def client(server):
    found = managesieve.connect(server.sieve)
    found.log_in(server.user)
    return found


def commands(server, command, literal=None, together=1):
    """Commands a second over one connection, so many sent together."""
    asked = client(server)
    octets = (command + (b" {%d+}\r\n" % len(literal) + literal if literal is not None else b"") + b"\r\n") * together
    count, began = 0, time.perf_counter()
    while time.perf_counter() - began < SECONDS:
        asked.send(octets)
        for _ in range(together):
            if not asked.reply()[-1].startswith(b"OK"):
                raise Exception(command)
        count += together
    spent = time.perf_counter() - began
    asked.ask(b"LOGOUT")
    asked.close()
    return count / spent


def tell(what, servers, measure):
    best = {server.name: 0.0 for server in servers}
    for _ in range(TURNS):
        for server in servers:
            best[server.name] = max(best[server.name], measure(server))
    ours, theirs = best["sieved"], best["Dovecot"]
    row(what, f"{ours:,.0f}", f"{theirs:,.0f}", f"{ours / theirs:.2f}")


def memory(server):
    """Resident memory in MB, of all processes."""
    pids = subprocess.run(["pgrep", "-P", str(server.process.pid)], capture_output=True, text=True).stdout.split() + [str(server.process.pid)]
    total = 0
    for pid in pids:
        with open(f"/proc/{pid}/status") as file:
            found = re.search(r"VmRSS:\s+(\d+)", file.read())
            total += int(found[1]) if found else 0
    return total / 1000


def main(words):
    millis = 0
    if words[:1] == ["--sync"]:
        millis, words = float(words[1]), words[2:]
    program, _ = program_of(words)
    with tempfile.TemporaryDirectory() as room:
        servers = [Sieved(room, program, millis), Dovecot(room, millis)]
        try:
            for server in servers:
                first = client(server)
                for command in (b'PUTSCRIPT "main" {%d+}\r\n%s' % (len(SCRIPT), SCRIPT), b'SETACTIVE "main"', b'PUTSCRIPT "long" {%d+}\r\n%s' % (len(LONG), LONG)):
                    assert first.ask(command)[-1].startswith(b"OK"), command
                first.close()
            head("A second", "sieved", "Dovecot", "sieved / Dovecot")
            for connections in 1, 20:
                tell(f"deliveries by LMTP of 8 kB, over {connections} connection{'s' * (connections > 1)}", servers, lambda server: deliveries(server, connections))
            for together in 1, 50:
                sent = f"{together} sent together" if together > 1 else "each behind the answer to the one before"
                tell(f"NOOP, {sent}", servers, lambda server: commands(server, b"NOOP", together=together))
                tell(f"GETSCRIPT of {len(LONG):,} octets, {sent}", servers, lambda server: commands(server, b'GETSCRIPT "long"', together=together))
            tell(f"PUTSCRIPT of {len(LONG):,} octets", servers, lambda server: commands(server, b'PUTSCRIPT "long"', LONG))
            row("resident memory after it, MB", *(f"{memory(server):.0f}" for server in servers), "")
        finally:
            for server in servers:
                server.stop()


if __name__ == "__main__":
    main(words_of(__doc__))
