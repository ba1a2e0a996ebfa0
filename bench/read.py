#!/usr/bin/env python3
"""How much memory SQLite alone takes to open a store with rows of 30 MB, to read one of them, to find it by its key, and to take it out.

  bench/read.py [MB]       MB: millions of octets of a row, 30 where none is named

It makes a program crate on `sqlite` in a folder of its own, which opens a table of the shape of `outgoing`, does one thing and closes the
file, and proves and builds it with `rt run` (some minutes). Prints the most memory that each process had, with one row in the file and with
three, as a table of docs/PERFORMANCE.md: these are the calls that `sieved send` makes of a row (`outgoing`, `next_queued` and `take_out` of
store_accounts), and that `export` makes of a message (`message_of`), whose table has the same key. `step` looks at the message where SQLite has
it, with no copy: less no caller can take.
"""
import os, shutil, sqlite3, tempfile
from contextlib import closing
from measure import built, head, row, weighed, words_of

SIZE = int((words_of(__doc__) or ["30"])[0]) * 1_000_000
TABLES = """CREATE TABLE account (name BLOB NOT NULL PRIMARY KEY) STRICT;
CREATE TABLE outgoing (owner BLOB NOT NULL REFERENCES account (name), id INTEGER NOT NULL, kind INTEGER NOT NULL, sender BLOB NOT NULL, target BLOB NOT NULL,
message BLOB NOT NULL, PRIMARY KEY (owner, id)) STRICT; INSERT INTO account VALUES (X'61')"""
DEEDS = {"open": "it is opened and closed", "find": "and the row found by its key (`next_queued`)", "read": "and the row read (`query_all`)",
         "copy": "and its message copied out of the row, as a value leaves it (`outgoing`)", "message": "and its message alone read, and copied out (`message_of`)",
         "step": "and its message alone read where it is (`query`, `get_ref`)", "take": "and the row taken out (`take_out`)"}
SOURCE = """//! Opens a file with rows of many octets, and does one thing with one of them.
use sqlite::{Alter, Connection, Error, params};
use sqlite_value::value::ValueRef;
use std::env;
use std::process::ExitCode;

const OWNER: &[u8] = b"a";
const ID: i64 = 1;
const ROW: &str = "SELECT id, kind, sender, target, message FROM outgoing WHERE owner = ?1 AND id = ?2";
const MESSAGE: &str = "SELECT message FROM outgoing WHERE owner = ?1 AND id = ?2";

fn main(rt: HostRuntime) -> ExitCode {
    match act(&rt) {
        Ok(true) => ExitCode::from(0),
        Ok(false) => ExitCode::from(2),
        Err(_) => ExitCode::from(1),
    }
}

fn word_of(rt: &HostRuntime) -> u8 {
    if let Ok(mut args) = env::args(rt) {
        if let Some(text) = args.nth(1) {
            return *text.as_bytes().first().unwrap_or(&0);
        }
    }
    0
}

fn find<S: Alter>(conn: &mut Connection<S>) -> Result<bool, Error> {
    let before: i64 = 0;
    let rows = conn.query_all("SELECT owner, id FROM outgoing WHERE owner = ?1 AND id > ?2 ORDER BY owner, id LIMIT 1", params![OWNER, &before])?;
    Ok(rows.len() == 1)
}

fn read<S: Alter>(conn: &mut Connection<S>) -> Result<bool, Error> {
    let rows = conn.query_all(ROW, params![OWNER, &ID])?;
    Ok(rows.len() == 1)
}

fn copy<S: Alter>(conn: &mut Connection<S>, sql: &str, at: usize) -> Result<bool, Error> {
    let rows = conn.query_all(sql, params![OWNER, &ID])?;
    match rows.first() {
        Some(row) => {
            let text: Vec<u8> = row.get(at)?;
            Ok(text.len() == SIZE)
        }
        None => Ok(false),
    }
}

fn step<S: Alter>(conn: &mut Connection<S>) -> Result<bool, Error> {
    let mut rows = conn.query(MESSAGE, params![OWNER, &ID])?;
    rows.advance()?;
    match rows.get() {
        Some(row) => match row.get_ref(0)? {
            ValueRef::Blob(text) => Ok(text.len() == SIZE),
            _ => Ok(false),
        },
        None => Ok(false),
    }
}

fn take<S: Alter>(conn: &mut Connection<S>) -> Result<bool, Error> {
    conn.execute("DELETE FROM outgoing WHERE owner = ?1 AND id = ?2", params![OWNER, &ID])?;
    Ok(true)
}

fn deed<S: Alter>(conn: &mut Connection<S>, word: u8) -> Result<bool, Error> {
    match word {
        b'f' => find(conn),
        b'r' => read(conn),
        b'c' => copy(conn, ROW, 4),
        b'm' => copy(conn, MESSAGE, 0),
        b's' => step(conn),
        b't' => take(conn),
        _ => Ok(true),
    }
}

fn act(rt: &HostRuntime) -> Result<bool, Error> {
    let mut conn = Connection::open(rt, "queue.db")?;
    let done = deed(&mut conn, word_of(rt))?;
    conn.close()?;
    Ok(done)
}
"""


def memory(program, folder, rows):
    """What each deed takes at most, over a file with so many rows."""
    full = f"{folder}/full.db"
    with closing(sqlite3.connect(full)) as db, db:
        db.executescript(TABLES)
        for number in range(rows):
            db.execute("INSERT INTO outgoing VALUES (X'61', ?, 1, X'62', X'63', ?)", (number + 1, b"a" * SIZE))
    found = {}
    for deed in DEEDS:
        shutil.copy(full, f"{folder}/queue.db")
        found[deed] = weighed([program, deed], cwd=folder).mib
    os.remove(full)
    return found


def main():
    with tempfile.TemporaryDirectory() as folder:
        program = built(folder, "read", "sqlite sqlite_value", {"src/main.rt": SOURCE.replace("SIZE", str(SIZE))})
        one, three = memory(program, folder, 1), memory(program, folder, 3)
    head(f"The ported SQLite alone, a row of {SIZE:,} octets of", "one: MB", "over an open", "three: MB", "over an open")
    for deed, said in DEEDS.items():
        row(said, *(f"{figure:.0f}" for found in (one, three) for figure in (found[deed], found[deed] - found["open"])))


if __name__ == "__main__":
    main()
