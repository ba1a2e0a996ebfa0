"""A small ManageSieve client (RFC 5804) and the programs that it speaks with, for tests/ and bench/."""
import base64, os, re, socket, subprocess, tempfile, time

HERE = os.path.dirname(os.path.abspath(__file__))
SIEVED = os.path.abspath(f"{HERE}/../crates/sieved/out/sieved")
PASSWORD = b"secret"
FINAL = re.compile(rb'(OK|NO|BYE)\b')
LITERAL = re.compile(rb'\{(\d+)\}\r\n$')


class Gone(Exception):
    """The other side has ended, or ended a line in its middle."""


class Client:
    """One client over anything that is read and written as a file: `reply` gives an answer's lines, the last one last."""

    def __init__(self, incoming, outgoing, sock=None):
        self.incoming, self.outgoing, self.sock = incoming, outgoing, sock

    def line(self):
        try:
            line = self.incoming.readline()
        except ConnectionError as error:
            raise Gone(error)
        if not line.endswith(b"\r\n"):
            raise Gone(line)
        return line

    def reply(self):
        lines = []
        while True:
            line = self.line()
            literal = LITERAL.search(line)
            if literal:
                octets = self.incoming.read(int(literal[1]))
                if len(octets) != int(literal[1]):
                    raise Gone(octets)
                lines.append(octets)
                self.line()
                continue
            lines.append(line)
            if FINAL.match(line):
                return lines

    def send(self, octets):
        try:
            self.outgoing.write(octets)
            self.outgoing.flush()
        except OSError as error:
            raise Gone(error)

    def ask(self, command, literal=None):
        if literal is not None:
            command += b" {%d+}\r\n" % len(literal) + literal
        self.send(command + b"\r\n")
        return self.reply()

    def log_in(self, user):
        text = base64.b64encode(b"\0" + user.encode() + b"\0" + PASSWORD)
        return self.ask(b'AUTHENTICATE "PLAIN" "' + text + b'"')[-1]

    def put(self, name, text):
        return self.ask(b'PUTSCRIPT "' + name + b'"', text)[-1]

    def get(self, name):
        """The script's text, or None where there is none."""
        lines = self.ask(b'GETSCRIPT "' + name + b'"')
        return lines[0] if lines[-1].startswith(b"OK") else None

    def close(self):
        for side in filter(None, (self.outgoing, self.incoming, self.sock)):
            try:
                side.close()
            except OSError:
                pass


def connect(port, greeted=True, seconds=60):
    """A client of whatever listens on the loopback address."""
    sock = socket.create_connection(("127.0.0.1", port), timeout=seconds)
    sock.setsockopt(socket.IPPROTO_TCP, socket.TCP_NODELAY, 1)
    client = Client(sock.makefile("rb"), sock.makefile("wb", buffering=0), sock)
    if greeted:
        client.reply()
    return client


class Store:
    """A store of its own in a folder that goes with it, with the users that are named."""

    def __init__(self, users, sieved=SIEVED):
        self.sieved = sieved
        self.folder = tempfile.TemporaryDirectory(prefix="sieved-")
        self.file = f"{self.folder.name}/mail.db"
        self.run("init")
        for user in users:
            self.run("adduser", "--salt", os.urandom(16).hex(), user, f"{user}@example.org", data=PASSWORD + b"\n")

    def words(self, word, *more):
        return [self.sieved, word, "--db", self.file, *more]

    def run(self, word, *more, data=b""):
        done = subprocess.run(self.words(word, *more), input=data, capture_output=True)
        if done.returncode:
            raise SystemExit(f"{word}: {done.returncode}: {done.stderr.decode()}")
        return done.stdout

    def serve(self, *more):
        """The server's process, and its port."""
        server = subprocess.Popen(self.words("serve", "--port", "0", *more), stdout=subprocess.PIPE)
        told = server.stdout.readline()
        return server, int(told.rsplit(b":", 1)[1])

    def daemon(self, *more):
        """The process of a daemon of ManageSieve, and its port."""
        server = subprocess.Popen(self.words("daemon", "--managesieve", "0", *more), stdout=subprocess.PIPE, stderr=subprocess.PIPE)
        told = server.stdout.readline()
        if not told:
            raise SystemExit(f"daemon: {server.wait()}: {server.stderr.read().decode()}")
        return server, int(told.rsplit(b":", 1)[1])

    def listen(self, *more):
        """socat, which starts a session for each connection, and its port."""
        with socket.socket() as sock:
            sock.bind(("127.0.0.1", 0))
            port = sock.getsockname()[1]
        command = " ".join(self.words("session", *more))
        listener = subprocess.Popen(["socat", f"TCP-LISTEN:{port},bind=127.0.0.1,fork,reuseaddr,backlog=128", f"EXEC:{command}"])
        for _ in range(100):
            try:
                connect(port).close()
                return listener, port
            except (OSError, Gone):
                time.sleep(0.05)
        raise SystemExit(f"nothing listens on {port}")

    def session(self, *more):
        """The process of one session, and its client, which was greeted."""
        process = subprocess.Popen(self.words("session", *more), stdin=subprocess.PIPE, stdout=subprocess.PIPE, stderr=subprocess.PIPE)
        client = Client(process.stdout, process.stdin)
        client.reply()
        return process, client


def end(process):
    """Ends a process that was started here."""
    process.kill()
    process.wait()
    for side in (process.stdin, process.stdout, process.stderr):
        if side:
            try:
                side.close()
            except OSError:
                pass
