#!/usr/bin/env python3
"""What reading 30 MB costs by itself: into room that grows, into room of the right size, and into room that is used again.

  bench/room.py

It makes a program crate on the standard library alone in a folder of its own, and proves and builds it with `rt run` (a minute). Each
row is the least of 20 runs of the read alone, within the process, and the page faults of a run. `deliver` reads as the first row
does; `try` reads a large message as the last one does, and counts its size besides. The last row keeps nothing: what it doesn't take is what
the system takes for fresh memory.
"""
import sys, tempfile
from measure import built, head, ran, row, words_of

SIZE = 30_000_000
WAYS = {
    "grows": "into room that grows by 256 KiB",
    "pieces": "into room of the right size, got at once and zeroed piece by piece",
    "whole": "into room of the right size, got and zeroed at once",
    "again": "into 256 KiB that are used again",
}
SOURCE = """//! Reads the standard input in the way that the first word names, and tells how many octets came and how many microseconds that took.
use std::alloc::Global;
use std::env;
use std::io;
use std::io::Read;
use std::time::Instant;

const PIECE: usize = 262_144;
const SIZE: usize = 30_000_001;

fn main(rt: HostRuntime) -> io::Result<()> {
    let mut way = None;
    for word in env::args(&rt)? {
        way = Some(word);
    }
    let way = way.as_ref().map_or("grows", |word| word.as_str());
    let began = Instant::now(&rt)?;
    let octets = read(rt.alloc(), &mut rt.stdin(), way)?;
    let took = began.elapsed(&rt)?.subsec_micros();
    println!(rt; "{octets} {took}")
}

fn read<R: Read>(alloc: Global, input: &mut R, way: &str) -> io::Result<usize> {
    let mut room = if way == "pieces" { Vec::with_capacity(alloc, SIZE)? } else { Vec::new(alloc) };
    if way == "whole" {
        room.resize(SIZE, 0u8)?;
    }
    let mut filled = 0usize;
    let mut octets = 0usize;
    for _ in 0..u64::MAX {
        if way == "again" {
            filled = 0;
        }
        if filled >= room.len() {
            filled = room.len();
            room.resize(filled.saturating_add(PIECE), 0u8)?;
        }
        let from = filled.min(room.len());
        let came = input.read(&mut room.as_mut_slice()[from..])?;
        if came == 0 {
            break;
        }
        filled = from.saturating_add(came);
        octets = octets.saturating_add(came);
    }
    Ok(octets)
}
"""


def read(program, way, given):
    """The microseconds and the page faults of a run."""
    with open(given, "rb") as file:
        run = ran([program, way], file)
    octets, took = (int(word) for word in run.out.split())
    if octets != SIZE:
        sys.exit(f"{way}: {octets} octets")
    return took, run.faults


def main():
    words_of(__doc__)
    with tempfile.TemporaryDirectory() as folder:
        program, given = built(folder, "room", "", {"src/main.rt": SOURCE, "stdin": ""}), f"{folder}/given"
        with open(given, "wb") as file:
            file.write(b"x" * SIZE)
        head("30 MB read from a file", "ms", "page faults")
        for way, what in WAYS.items():
            took, faults = min(read(program, way, given) for _ in range(20))
            row(what, f"{took / 1000:.1f}", f"{faults:,}")


if __name__ == "__main__":
    main()
