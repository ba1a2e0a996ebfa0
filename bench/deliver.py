#!/usr/bin/env python3
"""Times `sieved deliver` as whole processes, and prints the table of docs/PERFORMANCE.md.

  bench/deliver.py [SIEVED]       SIEVED: the program, crates/sieved/out/sieved where none is named

It needs python3 and sqlite3 (the command), which fills the stores and stands beside as `sqlite3 FILE "SELECT 1"`.
With dovecot-core and dovecot-sieve installed and run as root it also times `dovecot-lda -d` on the same message
and script. Each figure is the least of some runs, in milliseconds.
"""
import os, shutil, subprocess, tempfile, time
from measure import SALT, head, least, program_of, ran, row, weighed, words_of

SIEVED, _ = program_of(words_of(__doc__))
RUNS = 15
SCRIPT = 'require ["fileinto", "envelope"];\nif header :contains "subject" "[list]" { fileinto "lists"; }\nelsif envelope :domain "from" "example.net" { fileinto "net"; }\n'
INBOX = "keep;"
WHOLE = 'require ["fileinto", "vacation"]; fileinto "a"; fileinto "b"; redirect "c@example.com"; vacation "Away.";'


def message(size):
    head = b"From: bob@example.net\r\nTo: alice@example.org\r\nSubject: Lunch\r\nMessage-ID: <m1@example.net>\r\n\r\n"
    line = b"x" * 76 + b"\r\n"
    return head + line * ((size - len(head)) // len(line))


def tell(what, command, data=b"", before=(), runs=RUNS):
    """A row of some runs, each after `before`."""
    took = least(command, data, before, runs)
    if before:
        ran(before)
    row(what, f"{took:.1f}", f"{weighed(command, data).mib:.1f}")


def sql(file, text):
    subprocess.run(["sqlite3", file], input=text.encode(), check=True, stdout=subprocess.DEVNULL)


def store(folder, count, script=SCRIPT):
    file = f"{folder}/mail-{count}-{len(script)}.db"
    ran([SIEVED, "init", "--db", file])
    ran([SIEVED, "adduser", "--db", file, "--salt", SALT, "alice", "alice@example.org"], b"secret\n")
    text = script.replace("'", "''")
    sql(file, f"INSERT INTO script VALUES (CAST('alice' AS BLOB), CAST('main' AS BLOB), CAST('{text}' AS BLOB)); UPDATE account SET active = CAST('main' AS BLOB);")
    if count:
        sql(file, f"""WITH RECURSIVE k(n) AS (SELECT 1 UNION ALL SELECT n + 1 FROM k WHERE n < {count})
            INSERT INTO message(owner, id, bytes) SELECT CAST('alice' AS BLOB), n, randomblob(8192) FROM k;
            INSERT INTO copy(owner, folder, n, id, flags) SELECT owner, CAST('INBOX' AS BLOB), id, id, X'' FROM message;
            UPDATE account SET next_copy = {count + 1};""")
    return file


def deliver(file):
    return [SIEVED, "deliver", "--db", file, "--from", "bob@example.net", "--to", "alice@example.org", "alice"]


def stores(folder):
    for count in (0, 100, 1_000, 10_000):
        file = store(folder, count)
        whole = f"{file}.whole"
        shutil.copy(file, whole)
        fresh = ["cp", whole, file]
        tell(f"`deliver`, 8 kB, into a store of {count:,} messages ({os.path.getsize(whole) / 1e6:.1f} MB)", deliver(file), message(8_192), fresh, RUNS if count < 10_000 else 5)
        tell("`sqlite3 FILE \"SELECT 1\"` on it", ["sqlite3", file, "SELECT 1"])
        if count == 0:
            tell("`folders` (open, read, close)", [SIEVED, "folders", "--db", file, "alice"])
            large = message(30_000_000)
            tell(f"`deliver`, {len(large):,} octets", deliver(file), large, fresh, 5)


def scripts(folder):
    """A delivery into INBOX beside one that files into two folders, redirects and answers."""
    for count in (10, 10_000):
        for script, what in ((INBOX, "INBOX alone"), (WHOLE, "two folders, a redirect and an answer")):
            file = store(folder, count, script)
            whole = f"{file}.whole"
            shutil.copy(file, whole)
            tell(f"`deliver`, {count:,} messages kept: {what}", deliver(file), message(8_192), ["cp", whole, file], RUNS if count < 10_000 else 5)


CONF = """
protocols =
log_path = {0}/log
base_dir = {0}/run
state_dir = {0}/state
mail_location = maildir:{0}/mail/%u
first_valid_uid = 0
first_valid_gid = 0
userdb {{
  driver = static
  args = uid={1} gid={2} home={0}/mail/%u allow_all_users=yes
}}
passdb {{
  driver = static
  args = nopassword=y
}}
service auth {{
  unix_listener auth-userdb {{
    mode = 0666
  }}
}}
protocol lda {{
  mail_plugins = sieve
  postmaster_address = postmaster@example.org
}}
plugin {{
  sieve = file:{0}/alice.sieve
}}
"""


def dovecot(folder):
    lda = shutil.which("dovecot-lda") or "/usr/lib/dovecot/dovecot-lda"
    if not (os.path.exists(lda) and shutil.which("dovecot") and os.geteuid() == 0):
        return
    base = f"{folder}/dovecot"
    for name in ("run", "state", "mail"):
        os.makedirs(f"{base}/{name}")
    import pwd
    who = pwd.getpwnam("mail")
    subprocess.run(["chmod", "755", folder], check=True)
    subprocess.run(["chown", "-R", "mail:mail", f"{base}/mail"], check=True)
    open(f"{base}/alice.sieve", "w").write(SCRIPT)
    open(f"{base}/conf", "w").write(CONF.format(base, who.pw_uid, who.pw_gid))
    subprocess.run(["dovecot", "-c", f"{base}/conf"], check=True)
    try:
        time.sleep(1)
        words = [lda, "-c", f"{base}/conf", "-d", "alice", "-f", "bob@example.net", "-a", "alice@example.org", "-m", "INBOX"]
        for name in ("lists", "net"):
            os.makedirs(f"{base}/mail/alice/.{name}", exist_ok=True)
        subprocess.run(["chown", "-R", "mail:mail", f"{base}/mail"], check=True)
        tell("`dovecot-lda -d alice`, the same message and script, a Maildir", words, message(8_192))
    finally:
        subprocess.run(["doveadm", "-c", f"{base}/conf", "stop"], check=False)


def main():
    head("What", "Least ms", "Memory MB")
    tell("`true`", ["true"])
    tell("`sieved --version`", [SIEVED, "--version"])
    folder = tempfile.mkdtemp(prefix="sieved-bench-")
    try:
        stores(folder)
        scripts(folder)
        dovecot(folder)
    finally:
        shutil.rmtree(folder)


if __name__ == "__main__":
    main()
