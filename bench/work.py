#!/usr/bin/env python3
"""Draws scripts and messages whose tests take just less than the limit of work, runs each, and prints the slowest.

  bench/work.py [--draws N] [--seed N] [--program FILE | FOLDER]

It makes a program crate of bench/work/main.rt.txt beside a copy of this repository's crates (hard links, so what is proved of them is
used), in FOLDER or in a new one, and proves and builds it with `rt run`; or it takes a program that was built so. The work is reckoned here,
by the words of docs/SCRIPTS.md. Each time is the least of three.
"""
import argparse, os, random, tempfile
from measure import built, head, ran, row

HERE = os.path.dirname(os.path.abspath(__file__))
NEEDS = "octets sieve_syntax sieve_code sieve_exec std_io"
LIMIT = 200_000_000
SCRIPT = 262_144
HEADER = 1_048_576
REQUIRE = b'require ["relational", "comparator-i;ascii-numeric", "imap4flags", "date", "mailbox", "envelope", "subaddress"];\n'


# ---- the work, by docs/SCRIPTS.md

def size(text):
    return len(text) + 8


def key_work(names, match, octets, count, key):
    if match == "contains":
        return octets + names * (size(key) + 256) if len(key) < 64 else 8 * (octets + count * size(key))
    if match != "matches":
        return octets + count * size(key)
    if len(key) > 63 and b"?" in key:
        return 8 * octets * size(key)
    work = octets + count * size(key) + 256 * count * max(0, key.count(b"*") - 1)
    return work if len(key) < 64 else 8 * work


# ---- what is drawn

def spread(draw, low, high):
    """A number whose logarithm is drawn."""
    return int(low * (high / low) ** draw.random())


def octets_of(draw, length):
    """A text of few letters, of a period, or of any letters."""
    kind = draw.randrange(4)
    if kind == 0:
        return b"a" * length
    if kind == 1:
        period = bytes(draw.choice(b"ab") for _ in range(draw.randrange(1, 9)))
        return (period * (length // len(period) + 1))[:length]
    letters = b"ab" if kind == 2 else b"etaoinshrdlu "
    return bytes(draw.choice(letters) for _ in range(length)).strip() or b"a"


def key_of(draw, match, value, at):
    """A key that is nearly in the value, mostly not in it, and that differs from the others."""
    length = min(len(value) + 1, spread(draw, 1, 300 if draw.random() < 0.1 else 64))
    start = draw.randrange(max(1, len(value) - length + 1))
    key = bytearray(value[start:start + length])
    for _ in range(draw.randrange(1, 3)):
        if key:
            key[draw.randrange(len(key))] = draw.choice(b"abz")
    if draw.random() < 0.5:
        key += b"%d" % at
    key.insert(len(key) if draw.random() < 0.7 else draw.randrange(len(key) + 1), ord("Q"))
    if match == "matches":
        for _ in range(draw.choice([0, 1, 2, 2, 3, 8, 30])):
            key.insert(draw.randrange(len(key) + 1), draw.choice(b"***?"))
        if draw.random() < 0.7:
            key = b"*" + key + b"*"
    return bytes(key)


def quoted(text):
    return b'"' + text.replace(b"\\", b"\\\\").replace(b'"', b'\\"') + b'"'


def list_of(texts):
    return b"[" + b",".join(quoted(text) for text in texts) + b"]"


def drawn(draw):
    """A script of one test, its message, and its work."""
    kind = draw.choice(["header"] * 4 + ["address"])
    match = draw.choice(["is", "contains", "contains", "matches", "matches", "value", "numeric", "count"])
    if kind == "address" and match == "numeric":
        match = "contains"
    length = spread(draw, 1, 60_000)
    count = min(spread(draw, 1, 60_000), max(1, HEADER // (length + 8)))
    name = b"to" if kind == "address" else b"x"
    names = [name] if draw.random() < 0.7 else [b"%s%d" % (name, at) if at else name for at in range(spread(draw, 1, 2_000))]
    if kind == "address":
        length = min(length, 200)
        values = [octets_of(draw, length).replace(b" ", b"-") + b"@" + b"example.org"] * count
        message = b"".join(b"To: " + value + b"\r\n" for value in values)
        names = [b"to"]
    elif match == "numeric":
        values = [b"1" * length] * count
        message = b"".join(b"X: " + value + b"\r\n" for value in values)
    else:
        first = octets_of(draw, length)
        values = [first if draw.random() < 0.5 else octets_of(draw, length) for _ in range(min(count, 50))]
        values = (values * (count // len(values) + 1))[:count]
        message = b"".join(quoted_name(names, at) + b": " + value + b"\r\n" for at, value in enumerate(values))
    return test_of(draw, kind, match, names, values), message + b"\r\n"


def quoted_name(names, at):
    return names[at % len(names)].upper()


def test_of(draw, kind, match, names, values):
    octets, count = sum(size(value) for value in values), len(values)
    work = 16 * sum(size(name) for name in names) + octets
    room = SCRIPT - len(REQUIRE) - 1_000 - sum(len(name) + 3 for name in names)
    if match == "count":
        octets, count = 48, 1
    keys = []
    while len(keys) < 60_000:
        key = b"1" * spread(draw, 1, 40) if match == "numeric" else b"0" if match == "count" else key_of(draw, match, values[len(keys) % len(values)], len(keys))
        more = key_work(len(names), match, octets, count, key)
        if work + more > LIMIT or room < len(quoted(key)) + 1:
            break
        work += more
        room -= len(quoted(key)) + 1
        keys.append(key)
    tags = {"value": b':value "eq"', "numeric": b':value "lt" :comparator "i;ascii-numeric"', "count": b':count "eq"'}.get(match, b":" + match.encode())
    if match in ("is", "contains", "matches") and draw.random() < 0.3:
        tags += b' :comparator "i;octet"'
    if kind == "address":
        tags += b" " + draw.choice([b":all", b":localpart", b":domain", b":user", b":detail"])
    script = REQUIRE + b"if " + kind.encode() + b" " + tags + b" " + list_of(names) + b" " + list_of(keys) + b" { discard; }"
    what = f"{kind} {tags.decode()}, {len(names)} names, {count} values of {octets} octets, {len(keys)} keys, the first {keys[0][:24] if keys else b''!r}"
    return script if keys else None, what, work


def took(program, folder, script, message):
    open(f"{folder}/script", "wb").write(script)
    open(f"{folder}/message", "wb").write(message)
    least = None
    for _ in range(3):
        words = ran([program, f"{folder}/script", f"{folder}/message"]).out.decode().split()
        if len(words) < 3:
            return words[0], 0, 0
        found = (words[0], int(words[1]) / 1e6, int(words[2]) / 1e6)
        least = found if least is None or found[2] < least[2] else least
    return least


def main():
    words = argparse.ArgumentParser(description=__doc__, formatter_class=argparse.RawDescriptionHelpFormatter)
    words.add_argument("--draws", type=int, default=200)
    words.add_argument("--seed", type=int, default=1)
    words.add_argument("--program")
    words.add_argument("folder", nargs="?")
    asked = words.parse_args()
    folder = asked.folder or tempfile.mkdtemp()
    with open(f"{HERE}/work/main.rt.txt") as file:
        program = asked.program or built(folder, "work", NEEDS, {"src/main.rt": file.read()}, ["/dev/null", "/dev/null"])
    draw = random.Random(asked.seed)
    rows = []
    while len(rows) < asked.draws:
        (script, what, work), message = drawn(draw)
        if script is None:
            continue
        outcome, read, run = took(program, folder, script, message)
        rows.append((run, read, work, outcome, what))
    assert all(row[3] == "done" for row in rows), [row for row in rows if row[3] != "done"][:3]
    rows.sort(reverse=True)
    near = [row for row in rows if row[2] > 0.9 * LIMIT]
    print(f"{len(rows)} drawn, {len(near)} of them within a tenth of the limit; their mean {sum(row[0] for row in near) / max(1, len(near)):.0f} ms")
    head("What", "run, ms", "header, ms", "work, millions", "ns a unit")
    for run, read, work, _, what in rows[:12]:
        row(what, f"{run:.1f}", f"{read:.1f}", f"{work / 1e6:.1f}", f"{run * 1e6 / work:.2f}")


main()
