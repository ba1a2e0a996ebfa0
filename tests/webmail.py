#!/usr/bin/env python3
"""Clicks in Roundcube over the program: 'Forwarding' with a copy that is kept, and 'Out of office' for a minute and for some days; then
delivers messages. The same for an account whose password and address were changed. Counts what the form of a filter offers, and makes a
filter of each.

  tests/webmail.py [--sieved SIEVED] [TRIAL ..]       SIEVED: the program, crates/sieved/out/sieved where none is named

Prints a line for each trial, a last one that counts them, and ends with 1 where one failed. `tests/run` runs it. It needs root and Debian's
roundcube-core, roundcube-plugins, roundcube-sqlite3, php-cli, sqlite3, dovecot-imapd, chromium and chromium-driver, else its trials are left
out. The lines of docs/OPERATING.md for Roundcube's plugin are those that it takes. All files are in a folder that goes with the trial.
"""
import calendar, itertools, json, os, re, shutil, sqlite3, subprocess, tempfile, time, urllib.request
import managesieve, scripts, trials
from contextlib import closing, contextmanager, suppress
from postfix import free_port, wait_for
from proxy import block, listens

ROUNDCUBE = "/usr/share/roundcube"
ELEMENT = "element-6066-11e4-a52e-4f735466cecf"
BROWSER = ["--headless=new", "--no-sandbox", "--disable-gpu", "--disable-dev-shm-usage", "--window-size=1300,1000"]
DOVECOT = """
base_dir = {room}/run
state_dir = {room}/run
log_path = {room}/logs/dovecot
listen = 127.0.0.1
protocols = imap
ssl = no
disable_plaintext_auth = no
first_valid_uid = 1
mail_location = maildir:{room}/mail/%u
passdb {{
  driver = static
  args = password={password}
}}
userdb {{
  driver = static
  args = uid=nobody gid=nogroup home={room}/mail/%u
}}
service imap-login {{
  inet_listener imap {{
    port = {imap}
  }}
}}
"""
CONFIG = """<?php
$config['db_dsnw'] = 'sqlite:///{room}/roundcube.db?mode=0640';
$config['imap_host'] = '127.0.0.1:{imap}';
$config['des_key'] = '0123456789abcdefghijklmn';
$config['plugins'] = ['managesieve'];
$config['log_dir'] = '{room}/logs/';
$config['temp_dir'] = '{room}/temp/';
"""
# What is clicked as a filter's comparison, the text that is typed, and whether it holds of MESSAGE's subject (RFC 5228, 2.7.1; RFC 5231, 4.1 and 4.2): a letter stands behind a digit. Roundcube takes numbers alone as values.
COMPARISONS = [
    ("contains", "unc", True), ("notcontains", "unc", False), ("is", "lunch", True), ("notis", "lunch", False), ("exists", None, True), ("notexists", None, False),
    ("matches", "L?nc*", True), ("notmatches", "L?nc*", False), ("count-gt", "0", True), ("count-ge", "2", False), ("count-lt", "2", True), ("count-le", "0", False),
    ("count-eq", "1", True), ("count-ne", "1", False), ("value-gt", "5", True), ("value-ge", "5", True), ("value-lt", "5", False),
    ("value-le", "5", False), ("value-eq", "5", False), ("value-ne", "5", True),
]
# What is looked at, how the rest of the rule is filled in, and whether it holds of MESSAGE, which comes at 2027-08-07, a Saturday, 12:00 UTC (RFC 5228, 5.9; RFC 5260, 4 and 5).
THINGS = [
    ("subject", {"_rule_op[0]": "is", "_rule_target[0][]": "Lunch"}, True), ("from", {"_rule_op[0]": "contains", "_rule_target[0][]": "bob@"}, True),
    ("to", {"_rule_op[0]": "is", "_rule_target[0][]": "carol@example.org"}, False),
    ("...", {"_custom_header[0][]": "X-Kind", "_rule_op[0]": "is", "_rule_target[0][]": "meal"}, True),
    ("size", {"_rule_size_op[0]": "over", "_rule_size_target[0]": "1", "_rule_size_item[0]": "K"}, False),
    ("date", {"_rule_date_part[0]": "year", "_rule_op[0]": "is", "_rule_target[0][]": "2026"}, True),
    ("currentdate", {"_rule_date_part[0]": "weekday", "_rule_op[0]": "is", "_rule_target[0][]": "6"}, True),
]
# The part of the address `alice+food@example.org` that is compared, and the text that it is (RFC 5228, 2.7.4; RFC 5233, 4).
PARTS = [("all", "alice+food@example.org"), ("domain", "example.org"), ("localpart", "alice+food"), ("user", "alice"), ("detail", "food")]
# The comparator, and whether X-Count, `042 Eggs`, is `042 EGGS`, `042 eggs` and `42` by it (RFC 4790, 9.1 to 9.3; RFC 5228, 2.7.3).
COMPARATORS = [("", "042 EGGS", True), ("i;octet", "042 EGGS", False), ("i;ascii-casemap", "042 eggs", True), ("i;ascii-numeric", "42", True)]
# The action, how it is filled in, and what a delivery does then (RFC 5228, 4; RFC 3894; RFC 5230; RFC 5232).
ACTIONS = [
    ("fileinto", {"_action_mailbox[0]": "hit"}, ["file hit"]), ("fileinto_copy", {"_action_mailbox[0]": "hit"}, ["file hit", "file INBOX"]),
    ("redirect", {"_action_target[0]": "far@example.com"}, ["send far@example.com"]),
    ("redirect_copy", {"_action_target[0]": "far@example.com"}, ["file INBOX", "send far@example.com"]),
    ("vacation", {"_action_reason[0]": "Away"}, ["file INBOX", "vacation sent"]), ("discard", {}, ["discard"]), ("keep", {}, ["file INBOX"]), ("stop", {}, ["file INBOX"]),
    *((action, {"_action_flags[0][]": "\\Seen"}, ["file INBOX"]) for action in ("setflag", "addflag", "removeflag")),
]
# The actions after which a copy has that flag (RFC 5232, 3).
FLAGGING = ["setflag", "addflag"]
DATED = (b"From: bob@example.net\nTo: alice+food@example.org\nCc: alice@example.org\nSubject: Lunch\nX-Kind: meal\nX-Count: 042 Eggs\n"
         b"Date: Sat, 29 Aug 2026 10:00:00 +0200\n\nHi\n")
MESSAGE = b"From: bob@example.net\nTo: alice@example.org\nSubject: Lunch\n\nHi\n"
NUMBERS = itertools.count(1)


class Host:
    """Roundcube before a Dovecot and a `sieved daemon`, in which alice has an account."""

    def __init__(self, room, password):
        self.room, self.imap, self.web, self.driver = room, free_port(), free_port(), free_port()
        self.sieve, self.file, self.begun = free_port(), f"{room}/mail.db", []
        os.chmod(room, 0o755)
        for name in "run", "mail", "logs", "temp", "conf":
            os.mkdir(f"{room}/{name}")
        shutil.chown(f"{room}/mail", "nobody", "nogroup")
        self.write("dovecot.conf", DOVECOT.format(room=room, imap=self.imap, password=password))
        plugin = block("$config['managesieve_mbox_encoding']", "With it `Größe`").replace("localhost:4190", f"127.0.0.1:{self.sieve}")
        shutil.copytree(f"{ROUNDCUBE}/plugins", f"{room}/plugins")
        self.write("plugins/managesieve/config.inc.php", f"<?php\n{plugin}")
        self.write("first.php", f"<?php define('RCUBE_PLUGINS_DIR', '{room}/plugins/');")
        self.write("conf/config.inc.php", CONFIG.format(room=room, imap=self.imap))
        for name in "defaults.inc.php", "mimetypes.php":
            shutil.copy(f"/etc/roundcube/{name}", f"{room}/conf/{name}")
        with open(f"{ROUNDCUBE}/SQL/sqlite.initial.sql") as tables:
            subprocess.run(["sqlite3", f"{room}/roundcube.db"], stdin=tables, check=True)
        self.sieved("init")
        self.sieved("adduser", "--salt", "00" * 16, "alice", "alice@example.org", text=managesieve.PASSWORD)

    def write(self, name, text):
        with open(f"{self.room}/{name}", "w") as file:
            file.write(text)

    def sieved(self, word, *words, text=b""):
        done = subprocess.run([scripts.PROGRAM[0], word, "--db", self.file, *words], input=text, capture_output=True, timeout=60)
        assert done.returncode == 0, done
        return done.stdout.decode()

    def begin(self, *command, **more):
        self.begun.append(subprocess.Popen(command, stdin=subprocess.DEVNULL, stdout=subprocess.DEVNULL, stderr=subprocess.DEVNULL, **more))

    def start(self):
        self.begin("dovecot", "-F", "-c", f"{self.room}/dovecot.conf")
        self.begin(scripts.PROGRAM[0], "daemon", "--db", self.file, "--managesieve", str(self.sieve))
        env = {**os.environ, "ROUNDCUBE_CONFIG_DIR": f"{self.room}/conf/"}
        self.begin("php", "-d", f"auto_prepend_file={self.room}/first.php", "-S", f"127.0.0.1:{self.web}", "-t", ROUNDCUBE, env=env)
        self.begin("chromedriver", f"--port={self.driver}")
        for port in self.imap, self.sieve, self.web, self.driver:
            wait_for(lambda: listens(port), "a listener")

    def stop(self):
        for process in reversed(self.begun):
            process.terminate()
        for process in self.begun:
            with suppress(subprocess.TimeoutExpired):
                process.wait(20)


class Browser:
    """Chromium, driven by WebDriver (W3C)."""

    def __init__(self, host):
        self.base, self.web = f"http://127.0.0.1:{host.driver}/session", f"http://127.0.0.1:{host.web}/"
        wanted = {"goog:chromeOptions": {"args": BROWSER, "binary": shutil.which("chromium")}}
        self.base += "/" + self.ask("POST", "", {"capabilities": {"alwaysMatch": wanted}})["sessionId"]

    def ask(self, method, path, body=None):
        text = json.dumps(body).encode() if body is not None else None
        asked = urllib.request.Request(self.base + path, text, {"Content-Type": "application/json"}, method=method)
        with urllib.request.urlopen(asked, timeout=60) as answer:
            return json.load(answer)["value"]

    def open(self, page):
        self.ask("POST", "/url", {"url": self.web + page})

    def find(self, place):
        """The element of a CSS selector, once it is there."""
        found = []
        wait_for(lambda: found.extend(self.ask("POST", "/elements", {"using": "css selector", "value": place})) or found, place, 20)
        return "/element/" + found[0][ELEMENT]

    def click(self, place):
        self.ask("POST", f"{self.find(place)}/click", {})

    def type(self, place, text):
        self.ask("POST", f"{self.find(place)}/clear", {})
        self.ask("POST", f"{self.find(place)}/value", {"text": text})

    def run(self, script, *words):
        return self.ask("POST", "/execute/sync", {"script": script, "args": words})

    def said(self):
        """What Roundcube says at the page's foot."""
        return self.run("return document.querySelector('#messagestack').innerText")

    def save(self):
        self.click(".formbuttons button")
        wait_for(lambda: "saved" in self.said(), "saved page", 20)

    def choose(self, place, value):
        self.click(f"{place} option[value='{value}']")


@contextmanager
def a_browser(password="secret"):
    trials.need_root()
    trials.need("php", "chromium", "chromedriver", "dovecot", "sqlite3")
    if not os.path.isdir(f"{ROUNDCUBE}/plugins/managesieve") or not os.path.isdir("/usr/lib/dovecot"):
        raise trials.LeftOut("no Roundcube")
    with tempfile.TemporaryDirectory(prefix="sieved-webmail-") as room:
        host = Host(room, password)
        try:
            host.start()
            browser = Browser(host)
            try:
                yield host, browser
            finally:
                browser.ask("DELETE", "")
        finally:
            host.stop()


def log_in(browser, password="secret"):
    browser.open("")
    browser.type("#rcmloginuser", "alice")
    browser.type("#rcmloginpwd", password)
    browser.click("#rcmloginsubmit")
    browser.find("#messagelist, #messagelist-content")


def deliver(host, moment, message=MESSAGE):
    """A message with a Message-ID of its own, for one is sent on once."""
    message = b"Message-ID: <%d@example.net>\n" % next(NUMBERS) + message
    said = host.sieved("deliver", "--wait", "--from", "bob@example.net", "--to", "alice@example.org", "--at", str(moment), "alice", text=message)
    return said.splitlines()


def forward_a_copy(browser):
    browser.open("?_task=settings&_action=plugin.managesieve-forward")
    browser.choose("#forward_action", "copy")
    browser.type("#action_target", "carol@example.com")
    browser.choose("#forward_status", "on")
    browser.save()


def be_away_for_a_minute(browser):
    browser.open("?_task=settings&_action=plugin.managesieve-vacation")
    browser.type("#vacation_subject", "Away")
    browser.type("#vacation_reason", "Back in May.")
    browser.type("#vacation_interval", "60")
    browser.choose("select[name='vacation_interval_type']", "seconds")
    browser.choose("#vacation_status", "on")
    browser.save()


def be_away_for_days(browser, first, last):
    browser.open("?_task=settings&_action=plugin.managesieve-vacation")
    browser.type("#vacation_subject", "Away")
    browser.type("#vacation_reason", "Back in May.")
    for field, day in ("from", first), ("to", last):
        browser.find(f"#vacation_date{field}")
        browser.run(f"document.querySelector('#vacation_date{field}').value = arguments[0]", day)
    browser.choose("#vacation_status", "on")
    browser.save()


def offered(browser, name):
    """What a list of the form of a new filter offers."""
    browser.find(f"select[name='{name}']")
    return browser.run("return Array.from(document.querySelector(`select[name='${arguments[0]}']`).options, option => option.value)", name)


def forwarding_and_absence():
    with a_browser() as (host, browser):
        log_in(browser)
        forward_a_copy(browser)
        kept = ["file INBOX", "send carol@example.com"]
        assert deliver(host, 1_600_000_000) == kept
        be_away_for_a_minute(browser)
        for moment, answer in (1_700_000_000, "sent"), (1_700_000_059, "quiet 9"), (1_700_000_060, "sent"):
            assert deliver(host, moment) == [*kept, f"vacation {answer}"], moment
        rows = [re.sub(r" \d+$", "", line) for line in host.sieved("queue", "--wait", "alice").splitlines()]
        sent = "redirect <bob@example.net> <carol@example.com>"
        assert rows == [f"1 {sent}", f"2 {sent}", "3 reply <> <bob@example.net>", f"4 {sent}", f"5 {sent}", "6 reply <> <bob@example.net>"], rows
        assert host.sieved("folders", "--wait", "alice") == "INBOX 4\n"
    return "a copy goes out and the message stays; one answer a minute"


def changed_account():
    with a_browser("another") as (host, browser):
        assert host.sieved("passwd", "--wait", "alice", text=b"another\n") == "changed alice\n"
        assert host.sieved("address", "--wait", "alice", "al@example.net") == "changed alice\n"
        log_in(browser, "another")
        be_away_for_a_minute(browser)
        assert deliver(host, 1_700_000_000, MESSAGE.replace(b"alice@example.org", b"al@example.net")) == ["file INBOX", "vacation sent"]
        assert host.sieved("queue", "--wait", "alice", "1").startswith("From: al@example.net")
    return "Roundcube logs in with the new password, and the answer comes from the new address"


def days_of_absence():
    with a_browser() as (host, browser):
        log_in(browser)
        be_away_for_days(browser, "2027-08-01", "2027-08-14")
        moment = lambda month, day: calendar.timegm((2027, month, day, 12, 0, 0))
        answers = {(7, 31): [], (8, 1): ["vacation sent"], (8, 7): ["vacation quiet 9"], (8, 14): ["vacation sent"], (8, 15): [], (9, 1): []}
        for (month, day), answer in answers.items():
            assert deliver(host, moment(month, day)) == ["file INBOX", *answer], (month, day)
    return "answered on the first and the last day, and on none before or after"


def offers():
    with a_browser() as (host, browser):
        log_in(browser)
        browser.open("?_task=settings&_action=plugin.managesieve-action&_framed=1")
        counts = {name: len(offered(browser, name)) for name in ("_action_type[0]", "_rule_op[0]", "_header[0]", "_rule_mod_type[0]", "_rule_comp[0]")}
        assert list(counts.values()) == [11, 20, 7, 5, 4], counts
    return "11 actions, 20 comparisons, 7 things to compare, 5 parts of an address, 4 comparators"


def empty_script(host):
    """By hand, so that the next filter stands alone."""
    host.sieved("put", "--wait", "--activate", "alice", "roundcube", text=b"# no filter\n")


def fill_in(browser, name, value):
    """Chooses a value or types it, in the field of the form; what is behind 'Advanced options' is shown first."""
    kind = browser.run("const field = document.querySelector(`[name='${arguments[0]}']`); return field.type", name)
    if kind.startswith("select"):
        browser.choose(f"select[name='{name}']", value)
    elif kind == "checkbox":
        value = value.replace("\\", "\\\\")
        browser.click(f"[name='{name}'][value='{value}']")
    else:
        browser.type(f"[name='{name}']:not(textarea[style*='none'])", value)


def make_filter(browser, fields):
    """Makes a new filter of these fields, in their order, by clicking."""
    browser.open("?_task=settings&_action=plugin.managesieve-action&_framed=1")
    browser.type("input[name='_name']", "one")
    for name, value in fields.items():
        if name == "_rule_comp[0]":
            browser.click("#ruleadv0")
        fill_in(browser, name, value)
    browser.click("button.submit")


def flags_of_last(host):
    """The flags of the copy that came last."""
    with closing(sqlite3.connect(f"file:{host.file}?mode=ro", uri=True)) as base:
        return base.execute("SELECT flags FROM copy ORDER BY n DESC LIMIT 1").fetchone()[0]


def one_of_each():
    """Of each action, comparison, thing to compare, part and comparator a filter is clicked, and a delivery does what was clicked."""
    moment = calendar.timegm((2027, 8, 7, 12, 0, 0))
    with a_browser() as (host, browser):
        log_in(browser)
        for folder in "INBOX", "hit":
            subprocess.run(["doveadm", "-c", f"{host.room}/dovecot.conf", "mailbox", "create", "-s", "-u", "alice", folder], capture_output=True)
        discards = {"_action_type[0]": "discard"}
        filters = [({"_header[0]": "subject", "_rule_op[0]": op, **({"_rule_target[0][]": text} if text else {}), **discards}, ["discard"] if holds else ["file INBOX"])
                   for op, text, holds in COMPARISONS]
        filters += [({"_header[0]": thing, **rest, **discards}, ["discard"] if holds else ["file INBOX"]) for thing, rest, holds in THINGS]
        filters += [({"_header[0]": "to", "_rule_op[0]": "is", "_rule_target[0][]": text, "_rule_comp[0]": "", "_rule_mod[0]": "address", "_rule_mod_type[0]": part, **discards},
                     ["discard"]) for part, text in PARTS]
        filters += [({"_header[0]": "...", "_custom_header[0][]": "X-Count", "_rule_op[0]": "is", "_rule_target[0][]": text, "_rule_comp[0]": comparator, **discards},
                     ["discard"] if holds else ["file INBOX"]) for comparator, text, holds in COMPARATORS]
        filters += [({"_header[0]": "subject", "_rule_op[0]": "is", "_rule_target[0][]": "lunch", "_action_type[0]": action, **rest}, said) for action, rest, said in ACTIONS]
        empty_script(host)
        for fields, said in filters:
            make_filter(browser, fields)
            script = lambda: host.sieved("scripts", "--wait", "alice", "roundcube")
            wait_for(lambda: "[one]" in script(), f"a script of {fields}", 20)
            told = deliver(host, moment, DATED)
            assert told == said, (fields, told, script())
            if "file INBOX" in told:
                wanted = b"\\Seen" if fields.get("_action_type[0]") in FLAGGING else b""
                assert flags_of_last(host) == wanted, (fields, script())
            empty_script(host)
    return f"{len(filters)} filters were clicked, and a delivery does what each says"


TRIALS = {trial.__name__: trial for trial in (forwarding_and_absence, changed_account, days_of_absence, offers, one_of_each)}

if __name__ == "__main__":
    trials.main(TRIALS, lambda program: scripts.PROGRAM.__setitem__(0, program))
