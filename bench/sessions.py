#!/usr/bin/env python3
"""Times ManageSieve sessions over `sieved serve`, `sieved daemon` and `sieved session`, and prints the tables of docs/PERFORMANCE.md.

  bench/sessions.py [SIEVED]       SIEVED: the program, crates/sieved/out/sieved where none is named

It needs python3 and socat, which starts `session` for each connection; with strace it also says what of a command is open
and close. The store has one user with one script of some 90 octets. A session is: connect, read the greeting, log in,
LISTSCRIPTS, LOGOUT. Rates are the best of five turns of two seconds; times of single commands are medians.
"""
import re, shutil, statistics, subprocess, threading, time
from measure import head, program_of, row, words_of
from managesieve import Store, connect, end

RULES = b'require "fileinto";\r\nif header :contains "subject" "[list]" { fileinto "lists"; }\r\n'
SECONDS = 2.0
TURNS = 5


def session(port):
    client = connect(port)
    client.log_in("alice")
    client.ask(b"LISTSCRIPTS")
    client.ask(b"LOGOUT")
    client.close()


def rate(turn):
    """How often a second, in the best of some turns."""
    best = 0.0
    for _ in range(TURNS):
        count, began = 0, time.perf_counter()
        while time.perf_counter() - began < SECONDS:
            count += turn()
        best = max(best, count / (time.perf_counter() - began))
    return best


def one(port):
    session(port)
    return 1


def four(port):
    clients = [threading.Thread(target=session, args=(port,)) for _ in range(4)]
    for client in clients:
        client.start()
    for client in clients:
        client.join()
    return 4


def put_rates(port):
    client = connect(port)
    client.log_in("alice")
    command = b'PUTSCRIPT "rules" {%d+}\r\n%s\r\n' % (len(RULES), RULES)

    def together(count):
        client.send(command * count)
        for _ in range(count):
            assert client.reply()[-1].startswith(b"OK")
        return count

    rates = rate(lambda: together(1)), rate(lambda: together(10))
    client.close()
    return rates


def rates(name, port):
    tell(f"sessions, `{name}`, one client after the other", rate(lambda: one(port)))
    if name != "serve":
        tell(f"sessions, `{name}`, four clients at once", rate(lambda: four(port)))
    single, together = put_rates(port)
    tell(f"PUTSCRIPT in one session, `{name}`, each after the answer to the one before", single)
    tell(f"PUTSCRIPT in one session, `{name}`, ten sent together", together)


def tell(what, figure):
    row(what, f"{figure:.0f}")


def command_times(port):
    """The median time of a command, in milliseconds: a table."""
    times = {"connect and greeting": [], "AUTHENTICATE": [], "NOOP": [], "LISTSCRIPTS": [], "GETSCRIPT": [], "CHECKSCRIPT": [], "PUTSCRIPT": [], "LOGOUT": []}

    def timed(name, call):
        began = time.perf_counter()
        answer = call()
        times[name].append((time.perf_counter() - began) * 1000)
        return answer

    for _ in range(50):
        client = timed("connect and greeting", lambda: connect(port))
        timed("AUTHENTICATE", lambda: client.log_in("alice"))
        timed("NOOP", lambda: client.ask(b"NOOP"))
        timed("LISTSCRIPTS", lambda: client.ask(b"LISTSCRIPTS"))
        timed("GETSCRIPT", lambda: client.get(b"rules"))
        timed("CHECKSCRIPT", lambda: client.ask(b"CHECKSCRIPT", RULES))
        timed("PUTSCRIPT", lambda: client.put(b"rules", RULES))
        timed("LOGOUT", lambda: client.ask(b"LOGOUT"))
        client.close()
    return {name: statistics.median(all) for name, all in times.items()}


def traced(store):
    """What of a LISTSCRIPTS is open and what is close, by strace, in milliseconds: each has in it what strace adds to a call."""
    trace = f"{store.folder.name}/trace"
    commands = b'AUTHENTICATE "PLAIN" "AGFsaWNlAHNlY3JldA=="\r\n', *[b"LISTSCRIPTS\r\n"] * 50, b"LOGOUT\r\n"
    process = subprocess.Popen(["strace", "-ttt", "-T", "-o", trace, *store.words("session")], stdin=subprocess.PIPE, stdout=subprocess.PIPE)
    process.stdout.readline()
    for command in commands:
        process.stdin.write(command)
        process.stdin.flush()
        while not re.match(rb"(OK|NO|BYE)\b", process.stdout.readline()):
            pass
    process.stdin.close()
    process.wait()
    process.stdout.close()
    return phases([line.split(None, 1) for line in open(trace)])


def phases(calls):
    """Of each command: from the lock to its last read of the file is the open, from there to the unlock the close."""
    opens, closes, began, last = [], [], None, None
    for at, call in calls:
        at = float(at)
        took = float(re.search(r"<([0-9.]+)>$", call)[1]) if call.rstrip().endswith(">") else 0.0
        if call.startswith("flock(") and began is None:
            began, last = at, at
        elif began is not None and call.startswith(("pread64(", "read(", "preadv(")) and not call.startswith("read(0"):
            last = at + took
        elif began is not None and call.startswith(("write(1", "writev(1", "sendto(")):
            opens.append((last - began) * 1000)
            closes.append((at - last) * 1000)
            began = None
    return statistics.median(opens), statistics.median(closes)


def main():
    store = Store(["alice"], program_of(words_of(__doc__))[0])
    server, port = store.serve()
    client = connect(port)
    client.log_in("alice")
    client.put(b"rules", RULES)
    client.close()
    head("What", "A second")
    rates("serve", port)
    times = command_times(port)
    end(server)
    server, port = store.daemon()
    rates("daemon", port)
    by_daemon = command_times(port)
    end(server)
    listener, port = store.listen("--wait")
    rates("session", port)
    end(listener)
    print()
    head("Command", "Median ms over `serve`", "More than NOOP", "over `daemon`")
    for name, took in times.items():
        row(name, f"{took:.2f}", f"{took - times['NOOP']:.2f}", f"{by_daemon[name]:.2f}")
    if shutil.which("strace"):
        opened, closed = traced(store)
        print(f"\nOf a LISTSCRIPTS under strace: open {opened:.1f} ms, close {closed:.1f} ms.")


if __name__ == "__main__":
    main()
