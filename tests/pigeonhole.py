#!/usr/bin/env python3
"""Tries drawn scripts on drawn messages beside Pigeonhole's `sieve-test`, and tells where the two differ.

  tests/pigeonhole.py [--quick] [--sieved SIEVED] [TRIAL ..]

A script has six rules, each of which files into a folder of its own where its test holds, and some change flags before or within
them; the tests, their keys and the messages are drawn with a fixed seed, so that keys are near to what the messages have. 20,000
scripts are tried, with --quick 2,000. `flags_of_copies` delivers by 1,000 of them (--quick 100) into a store, and holds the flags
of each copy there against those that sieve-test tells; no folder is filed into twice. What DECISIONS explains, and what
`sieve-test` can't be given, isn't drawn: a null sender, one part of the envelope named twice, dates that only one of the two
reads, zones that are none, `:count` of parts of addresses, keys that are no number with `i;ascii-numeric`, `:value` with
`i;ascii-casemap`, `?` in patterns. A script at which sieve-test itself breaks off is passed over.
The moment is that of the run, the host's zone UTC. It needs root and dovecot-sieve; sieve-test runs as nobody.
"""
import base64, os, random, re, sqlite3, subprocess, sys, tempfile, time
from contextlib import closing
from datetime import datetime, timedelta, timezone
from concurrent.futures import ThreadPoolExecutor

HERE = os.path.dirname(os.path.abspath(__file__))
sys.path.insert(0, HERE)
import trials

SIEVED = os.path.abspath(f"{HERE}/../crates/sieved/out/sieved")
RULES, SCRIPTS, SEED = 6, 20_000, 5228
EXTENSIONS = ["fileinto", "envelope", "subaddress", "relational", "comparator-i;ascii-numeric", "encoded-character", "date", "imap4flags"]
RELATIONS = ["gt", "ge", "lt", "le", "eq", "ne"]
WORDS = ["lunch", "Lunch", "LUNCH", "dinner", "a", "b", "ab", "re:", "[list]", "10", "9", "010", "3", "*", "?", "\\", "x y", "caf\u00e9", "no", "é", "$", "${hex:41}"]
NAMES = ["Subject", "X-A", "X-B", "X-Priority", "List-Id", "To", "From", "Cc", "Date", "Received", "X-Date", "X-None"]
ADDRESS_NAMES = ["From", "To", "Cc", "Sender", "Reply-To", "Resent-To"]
LOCALS = ["alice", "bob", "Alice", "alice+lists", "bob+", "+x", "a.b", "a+b+c", "x"]
DATES = ["Date", "X-Date", "Received", "X-None", "Subject"]
DAYS, MONTHS = "Mon Tue Wed Thu Fri Sat Sun".split(), "Jan Feb Mar Apr May Jun Jul Aug Sep Oct Nov Dec".split()
PARTS = "year month day date julian hour minute second time iso8601 std11 zone weekday".split()
# Of the moment of the run what doesn't change while it is looked at, or seldom: such a script is tried again.
SLOW_PARTS = "year month day date julian hour zone weekday".split()
ZONES = ["+0000", "-0000", "+0100", "-0500", "+0530", "-0330", "+1200", "-1130"]
FLAGS = ["\\Seen", "\\seen", "\\Flagged", "\\Answered", "\\Deleted", "\\Draft", "work", "Work", "$Forwarded", "NonJunk", "a", "\\Seen work",
         "x  y a", "", " ", "\\Recent", "\\foo", "a(b", "\u00e9", "10", "3"]
DOMAINS = ["example.org", "example.net", "Example.ORG", "mail.example.org", "b.c"]


def word(draw):
    return draw.choice(WORDS)


def words(draw, most=3):
    return " ".join(word(draw) for _ in range(draw.randint(0, most)))


def address(draw):
    return f"{draw.choice(LOCALS)}@{draw.choice(DOMAINS)}"


def mailbox(draw):
    """One of a field's addresses, by the forms of RFC 5322, 3.4."""
    plain = address(draw)
    forms = [plain, f"<{plain}>", f"Alice Example <{plain}>", f'"Example, Alice" <{plain}>', f"{plain} (a comment)", f"Bob <{plain}> (b)"]
    return draw.choice(forms)


def encoded(draw, text):
    octets = text.encode()
    if draw.random() < 0.5:
        return f"=?UTF-8?B?{base64.b64encode(octets).decode()}?="
    return "=?utf-8?Q?" + "".join(chr(o) if chr(o).isalnum() and o < 128 else f"={o:02X}" for o in octets) + "?="


def moment(draw):
    """A moment and the zone that it is written in, some at the ends of years, months and days."""
    zone = timezone(timedelta(minutes=draw.choice([0, 60, -300, 330, -210, 720, -690])))
    when = draw.choice([datetime(1999, 12, 31, 23, 59, 59), datetime(2000, 2, 29, 0, 0, 0), datetime(2026, 11, 27, 12, 0, 0), datetime(1997, 4, 1, 9, 6, 31)])
    return (when + timedelta(seconds=draw.choice([0, 1, -1, 3600, 86_400 * draw.randint(0, 4_000), draw.randint(0, 10**8)]))).replace(tzinfo=zone)


def date(draw):
    """A date by RFC 5322, 3.3 and 4.3."""
    when = moment(draw)
    day = draw.choice(["", f"{DAYS[when.weekday()]}, "])
    zone = draw.choice([when.strftime("%z"), when.strftime("%z"), "GMT", "EST", "PDT", "UT"])
    clock = when.strftime(draw.choice(["%H:%M:%S", "%H:%M:%S", "%H:%M"]))
    return f"{day}{when.day} {MONTHS[when.month - 1]} {when.year} {clock} {zone}"


def date_key(draw):
    when = moment(draw)
    return draw.choice([
        when.strftime("%Y"), when.strftime("%m"), when.strftime("%d"), when.strftime("%Y-%m-%d"), when.strftime("%H"), when.strftime("%M"),
        when.strftime("%S"), when.strftime("%H:%M:%S"), when.strftime("%z"), when.strftime("%w"), str((when.date() - datetime(1858, 11, 17).date()).days),
        "1997", "2026", "0", "1", "12", "00", "", "-", ":", "+0", "x", datetime.now(timezone.utc).strftime("%Y-%m-%d"),
    ])


def date_test(draw):
    """A test `date` or `currentdate`."""
    is_current = draw.random() < 0.3
    tags, key = matching(draw, date_key)
    zone = draw.choice(["", f':zone "{draw.choice(ZONES)}"'] + [":originalzone"] * (not is_current))
    tags += [zone] if zone else []
    draw.shuffle(tags)
    name = [] if is_current else [quoted(draw, draw.choice(DATES))]
    which = draw.choice(SLOW_PARTS if is_current else PARTS)
    return " ".join(["currentdate" if is_current else "date", *tags, *name, quoted(draw, draw.choice([which, which.upper()])), strings(draw, key)])


def value(draw, name):
    """What a field of that name has, as it stands in the message."""
    if name in ADDRESS_NAMES:
        return ", ".join(mailbox(draw) for _ in range(draw.randint(1, 3)))
    if name in ("Date", "X-Date"):
        return draw.choice([date(draw), date(draw), date(draw), "tomorrow", ""])
    if name == "Received":
        return f"from a.example by b.example; {date(draw)}"
    if name == "X-Priority":
        return draw.choice(["1", "2", "3", "03", "10", "1 (highest)", "high", "", "18446744073709551617"])
    text = words(draw)
    kind = draw.random()
    if kind < 0.2:
        return encoded(draw, text) if text else text
    text = text.encode("ascii", "replace").decode().replace("?", "e") if kind < 0.9 else text
    return text.replace(" ", "\r\n ", 1) if kind < 0.3 else text


def message(draw):
    fields = [(name, value(draw, name)) for name in draw.choices(NAMES[:-1], k=draw.randint(0, 9))]
    head = "".join(f"{draw.choice([name, name.lower(), name.upper()])}: {text}\r\n" for name, text in fields)
    return (head + "\r\n" + "x" * draw.choice([0, 1, 70, 1000]) + "\r\n").encode()


def quoted(draw, text):
    text = text.replace("\\", "\\\\").replace('"', '\\"')
    return f'"{text}"'


def strings(draw, make, most=3):
    found = [quoted(draw, make(draw)) for _ in range(draw.randint(1, most))]
    return found[0] if len(found) == 1 and draw.random() < 0.5 else "[" + ", ".join(found) + "]"


def pattern(draw):
    return "".join(draw.choice(["*", "l", "a", "lunch", "@", "example", ".", "org", " ", "\\*", "\\\\", "1"]) for _ in range(draw.randint(0, 5)))


def number(draw):
    return draw.choice(["0", "1", "2", "3", "9", "10", "010", "2x"])



def matching(draw, key):
    """The tags of a comparator and a match type, in either order, and what draws keys for them."""
    kind = draw.choice(["", ":is", ":contains", ":matches", ":value", ":count"])
    comparator = draw.choice((["i;octet"] if kind == ":value" else ["", "i;octet", "i;ascii-casemap"]) + ["i;ascii-numeric"] * (kind not in (":contains", ":matches")))
    tags = []
    if kind:
        tags.append(kind + (f' "{draw.choice(RELATIONS)}"' if kind in (":value", ":count") else ""))
    if comparator:
        tags.append(f':comparator "{comparator}"')
    draw.shuffle(tags)
    if kind == ":matches":
        key = pattern if draw.random() < 0.7 else key
    elif kind == ":count" or comparator == "i;ascii-numeric":
        key = number
    return tags, key


def part(draw):
    return draw.choice([[], [":all"], [":localpart"], [":domain"], [":user"], [":detail"]])


def address_key(draw):
    whole = address(draw)
    local, domain = whole.split("@")
    return draw.choice([whole, local, domain, local.partition("+")[0], local.partition("+")[2], "", "a", "example", "alice"])


def flag(draw):
    return draw.choice(FLAGS)


def flag_pattern(draw):
    return "".join(draw.choice(["*", "w", "work", "\\\\", "seen", "S", "$", "a", "1"]) for _ in range(draw.randint(0, 3)))


def flag_test(draw):
    """A test `hasflag`."""
    tags, key = matching(draw, flag)
    return " ".join(["hasflag", *tags, strings(draw, flag_pattern if key is pattern else key)])


def flag_command(draw):
    return f'{draw.choice(["setflag", "addflag", "addflag", "removeflag"])} {strings(draw, flag)};'


def names(draw):
    return strings(draw, lambda draw: draw.choice(NAMES))


def test(draw, size, depth=0):
    kind = draw.choice(["header", "header", "header", "address", "address", "envelope", "date", "date", "hasflag", "hasflag", "exists", "size", "bool"] + ["not", "allof", "anyof"] * (depth < 2))
    if kind in ("header", "address", "envelope"):
        tags, key = matching(draw, word if kind == "header" else address_key)
        if kind != "header":
            tags += [] if any(":count" in tag for tag in tags) else part(draw)
            draw.shuffle(tags)
        what = {"header": names, "address": lambda draw: strings(draw, lambda draw: draw.choice(ADDRESS_NAMES)),
                "envelope": lambda draw: draw.choice(['"from"', '"to"', '["From"]', '["from", "to"]', '["to", "FROM"]'])}[kind](draw)
        return " ".join([kind, *tags, what, strings(draw, key)])
    if kind == "date":
        return date_test(draw)
    if kind == "hasflag":
        return flag_test(draw)
    if kind == "exists":
        return f"exists {names(draw)}"
    if kind == "size":
        return f"size {draw.choice([':over', ':under'])} {max(size + draw.choice([-1, 0, 1, -100, 100]), 0)}"
    if kind == "bool":
        return draw.choice(["true", "false"])
    if kind == "not":
        return f"not {test(draw, size, depth + 1)}"
    return f"{kind} ({', '.join(test(draw, size, depth + 1) for _ in range(draw.randint(1, 3)))})"


def rule(draw, size, at):
    """A rule, some with changes of flags before it and within, in one line."""
    before = flag_command(draw) + " " if draw.random() < 0.4 else ""
    within = flag_command(draw) + " " if draw.random() < 0.2 else ""
    given = f":flags {strings(draw, flag)} " if draw.random() < 0.2 else ""
    return f'{before}if {test(draw, size)} {{ {within}fileinto {given}"r{at}"; }}\r\n'


def script(draw, size):
    rules = [rule(draw, size, at) for at in range(RULES)]
    return f"require [{', '.join(quoted(draw, name) for name in EXTENSIONS)}];\r\n" + "".join(rules)


def drawn(seed):
    draw = random.Random(seed)
    mail = message(draw)
    return script(draw, len(mail)), mail, address(draw), address(draw)


def by_sieved(text, mail, sender, recipient):
    given = b"%d\n" % len(text) + text + mail
    words = [SIEVED, "try", "--at", str(int(time.time())), "--from", sender, "--to", recipient]
    done = subprocess.run(words, input=given, capture_output=True)
    if done.returncode:
        return done.stdout.decode().strip()
    return sorted(set(re.findall(r"^file (r\d+)$", done.stdout.decode(), re.M)))


def sieve_test(folder, text, mail, sender, recipient):
    with open(f"{folder}/a.sieve", "wb") as file:
        file.write(text)
    with open(f"{folder}/a.eml", "wb") as file:
        file.write(mail)
    words = ["sieve-test", "-C", "-c", f"{folder}/dovecot.conf", "-f", sender, "-a", recipient, "-r", recipient, f"{folder}/a.sieve", f"{folder}/a.eml"]
    return subprocess.run(words, capture_output=True, env={"USER": "nobody", "HOME": folder, "PATH": os.environ["PATH"], "TZ": "UTC"})


def by_sieve_test(folder, text, mail, sender, recipient):
    done = sieve_test(folder, text, mail, sender, recipient)
    if b"Panic" in done.stderr:
        return None
    if done.returncode:
        return "invalid: " + done.stderr.decode(errors="replace").strip()
    return sorted(set(re.findall(r"store message in folder: (r\d+)$", done.stdout.decode(errors="replace"), re.M)))


CONFIGURATION = """mail_location = maildir:{folder}/mail
postmaster_address = postmaster@example.org
mail_uid = nobody
mail_gid = nogroup
first_valid_uid = 1
log_path = /dev/stderr
"""


def compared(seeds):
    """The seeds at which the two differ, with what each says."""
    found = []
    with tempfile.TemporaryDirectory() as folder:
        os.chmod(folder, 0o777)
        with open(f"{folder}/dovecot.conf", "w") as file:
            file.write(CONFIGURATION.format(folder=folder))
        for seed in seeds:
            text, mail, sender, recipient = drawn(seed)
            for _ in range(2):
                ours = by_sieved(text.encode(), mail, sender, recipient)
                theirs = by_sieve_test(folder, text.encode(), mail, sender, recipient)
                if theirs in (ours, None):
                    break
            else:
                found.append((seed, ours, theirs))
    return found


def told(seed, ours, theirs):
    text, mail, sender, recipient = drawn(seed)
    rules = {f"r{at}": rule for at, rule in enumerate(text.splitlines()[1:])}
    apart = sorted(set(ours) ^ set(theirs)) if isinstance(ours, list) and isinstance(theirs, list) else []
    lines = [f"seed {seed}: sieved {ours}, sieve-test {theirs}", *(rules[name] for name in apart), f"from <{sender}> to <{recipient}>"]
    return "\n".join(lines) + "\n" + mail.decode(errors="replace")


def scripts_and_mails():
    trials.need_root()
    trials.need("sieve-test")
    count = trials.some(SCRIPTS)
    seeds = range(SEED * 1_000_000, SEED * 1_000_000 + count)
    lanes = os.cpu_count()
    with ThreadPoolExecutor(lanes) as pool:
        found = [one for some in pool.map(compared, [seeds[at::lanes] for at in range(lanes)]) for one in some]
    for one in found[:20]:
        print(told(*one), flush=True)
    assert not found, f"{len(found)} of {count} differ"
    return f"{count} scripts of {RULES} rules do the same by both"


def is_flag(name):
    """One of the system flags, or an atom (RFC 3501, 9). sieve-test takes any text behind `:flags`, which DECISIONS explains."""
    return name in ("\\seen", "\\answered", "\\flagged", "\\deleted", "\\draft") or name.isascii() and not set(name) & set('(){%*"\\]')


def copies_told(said):
    """To each folder that sieve-test files into the flags that it tells, in lower case."""
    found, folder = {}, None
    for line in said.splitlines():
        filed = re.search(r"store message in folder: (\S+)$", line)
        if filed:
            folder = filed[1]
            found[folder] = set()
        flags = re.search(r"add IMAP flags: (.*)$", line)
        if flags and folder:
            found[folder] = set(filter(is_flag, flags[1].lower().split()))
    return found


def copies_kept(folder, text, mail, sender, recipient):
    """The same of a store that the mail was delivered into."""
    def run(*words, given=b""):
        done = subprocess.run([SIEVED, words[0], "--db", f"{folder}/mail.db", *words[1:]], input=given, capture_output=True)
        return done.returncode, done.stdout.decode(), done.stderr.decode()
    if not os.path.exists(f"{folder}/mail.db"):
        assert run("init")[0] == run("adduser", "alice", "alice@example.org", given=b"secret")[0] == 0
    status, _, told = run("put", "--activate", "alice", "main", given=text)
    if status:
        return told.strip()
    with closing(sqlite3.connect(f"file:{folder}/mail.db?mode=ro", uri=True)) as base:
        last = base.execute("SELECT next_copy FROM account").fetchone()[0]
    status, said, told = run("deliver", "--from", sender, "--to", recipient, "alice", given=mail)
    assert status == 0, (status, said, told)
    with closing(sqlite3.connect(f"file:{folder}/mail.db?mode=ro", uri=True)) as base:
        return {name.decode(): set(flags.decode().lower().split()) for name, flags in base.execute("SELECT folder, flags FROM copy WHERE n >= ?", [last])}


def flags_of_copies():
    """What each copy in a store has, after a delivery by each of these scripts."""
    trials.need_root()
    trials.need("sieve-test")
    count, found, kept = trials.some(1_000), [], 0
    with tempfile.TemporaryDirectory() as folder:
        os.chmod(folder, 0o777)
        with open(f"{folder}/dovecot.conf", "w") as file:
            file.write(CONFIGURATION.format(folder=folder))
        for seed in range(SEED * 1_000_000, SEED * 1_000_000 + count):
            text, mail, sender, recipient = drawn(seed)
            done = sieve_test(folder, text.encode(), mail, sender, recipient)
            if done.returncode or b"Panic" in done.stderr:
                continue
            theirs = copies_told(done.stdout.decode(errors="replace"))
            ours = copies_kept(folder, text.encode(), mail, sender, recipient)
            kept += sum(bool(flags) for flags in theirs.values())
            if ours != theirs:
                found.append((seed, ours, theirs))
    for seed, ours, theirs in found[:10]:
        print(f"seed {seed}: sieved {ours}, sieve-test {theirs}\n{drawn(seed)[0]}", flush=True)
    assert not found, f"{len(found)} of {count} differ"
    return f"{count} scripts: each copy has the same flags by both, {kept} copies have some"


def main():
    def program(path):
        global SIEVED
        SIEVED = path
    trials.main({"scripts_and_mails": scripts_and_mails, "flags_of_copies": flags_of_copies}, program)


if __name__ == "__main__":
    main()
