#!/usr/bin/env python3
"""What SQLite alone takes for a message of 30 MB, in milliseconds and in memory, beside `sieved deliver` of the same size.

  bench/insert.py [SIEVED]       SIEVED: the program, crates/sieved/out/sieved where none is named; without one it tells of SQLite alone

It makes two program crates on `sqlite` in a folder of its own. Each puts one value of 30,000,000 octets into a table of the shape of
`message`, one of them in memory and one in a file that it closes, and they are proved and built with `rt run` (some minutes). For each
the least of ten runs: the calls that open and make tables, the insert, the close, and the page faults of the process; and the most
memory that it had, of which 30 MB are the value.
"""
import os, tempfile
from measure import SALT, built, head, program_of, ran, row, words_of

SIZE = 30_000_000
# How each opens, and how it closes.
OPENS = {
    "memory": ("Connection::open_in_memory(rt.alloc())", "drop(conn);"),
    "file": ('Connection::open(rt, "message.db")', "if conn.close().is_err() {\n        return false;\n    }"),
}
SOURCE = """//! Puts one value of 30 MB into a table, and tells how many microseconds each call took.
use sqlite::{Connection, params};
use std::process::ExitCode;
use std::time::Instant;

const TABLES: &str = "CREATE TABLE account (name BLOB NOT NULL PRIMARY KEY) STRICT; \\
CREATE TABLE message (owner BLOB NOT NULL REFERENCES account (name), id INTEGER NOT NULL, bytes BLOB NOT NULL, \\
PRIMARY KEY (owner, id)) STRICT; INSERT INTO account VALUES (X'61')";

fn main(rt: HostRuntime) -> ExitCode {
    ExitCode::from(u8::from(!put(&rt)))
}

fn micros(rt: &HostRuntime, since: &Instant) -> u64 {
    match since.elapsed(rt) {
        Ok(took) => took.as_secs().saturating_mul(1_000_000).saturating_add(u64::from(took.subsec_micros())),
        Err(_) => 0,
    }
}

fn put(rt: &HostRuntime) -> bool {
    let mut text: Vec<u8> = Vec::new(rt.alloc());
    if text.resize(30_000_000, 97).is_err() {
        return false;
    }
    let Ok(began) = Instant::now(rt) else {
        return false;
    };
    let Ok(mut conn) = OPEN else {
        return false;
    };
    if conn.execute_batch(TABLES).is_err() {
        return false;
    }
    let opened = micros(rt, &began);
    if conn.execute("INSERT INTO message VALUES (X'61', 1, ?1)", params![text.as_slice()]).is_err() {
        return false;
    }
    let inserted = micros(rt, &began);
    CLOSE
    let closed = micros(rt, &began);
    println!(rt; "{opened} {inserted} {closed}").is_ok()
}
"""


def made(folder, name):
    """The program that opens so."""
    opens, closes = OPENS[name]
    return built(f"{folder}/{name}", f"insert_{name}", "sqlite", {"src/main.rt": SOURCE.replace("OPEN", opens).replace("CLOSE", closes)})


def alone(program, folder):
    """The least of each, of ten runs: opened, inserted, closed, in milliseconds, and faults and memory of one of them."""
    least = None
    for _ in range(10):
        if os.path.exists(f"{folder}/message.db"):
            os.remove(f"{folder}/message.db")
        run = ran([program], cwd=folder)
        opened, inserted, closed = (int(word) / 1000 for word in run.out.split())
        took = [opened, inserted - opened, closed - inserted]
        least = took if least is None else [min(pair) for pair in zip(least, took)]
    return least, run


def delivered(program, folder):
    """The quickest of ten deliveries, each into an empty store."""
    db, runs = ["--db", f"{folder}/mail.db"], []
    with open(f"{folder}/message", "wb") as message:
        message.write(b"Subject: x\n\n")
        message.writelines([b"a" * 10_000] * ((SIZE - 12) // 10_000))
    for _ in range(10):
        for name in os.listdir(folder):
            if name.startswith("mail.db"):
                os.remove(f"{folder}/{name}")
        ran([program, "init", *db])
        ran([program, "adduser", *db, "--salt", SALT, "alice", "alice@example.org"], b"secret\n")
        with open(f"{folder}/message", "rb") as message:
            runs.append(ran([program, "deliver", *db, "--to", "alice@example.org", "alice"], message))
    return min(runs)


def main():
    program, _ = program_of(words_of(__doc__))
    head("A message of 30 MB", "opened and tables made, ms", "the insert, ms", "the close, ms", "page faults", "memory, MB")
    with tempfile.TemporaryDirectory() as folder:
        for name, where in ("memory", "in memory"), ("file", "in a file"):
            (opened, inserted, closed), run = alone(made(folder, name), folder)
            row(f"SQLite alone, {where}", f"{opened:.1f}", f"{inserted:.0f}", f"{closed:.1f}", f"{run.faults:,}", f"{run.mib:.1f}")
        if os.path.exists(program):
            run = delivered(program, folder)
            row(f"`sieved deliver`, the whole process {run.ms:.0f} ms", "", "", "", f"{run.faults:,}", f"{run.mib:.1f}")


if __name__ == "__main__":
    main()
