#!/usr/bin/env python3
"""Times the tests of `relational` over long fields, and prints a table of docs/PERFORMANCE.md.

  bench/values.py [SIEVED]     SIEVED: the program, crates/sieved/out/sieved where none is named

A message has 100 kB or 1 MB of fields of one name, one field or many of 100 octets. A script of a hundred tests, none of which holds, is run
on it by `sieved try`: the least of 15 runs, less that of an empty script, a hundredth of it for each test. Run it with `chrt -f 1` beside
other work.
"""
from measure import head, least, program_of, ran, row, words_of

SIEVED, _ = program_of(words_of(__doc__))
TESTS = 100
REQUIRE = b'require ["relational", "comparator-i;ascii-numeric"];\n'
FORMS = {
    "`:value`": b'header :value "gt" "x-big" "zzz%d"',
    "`:value`, numeric": b'header :value "gt" :comparator "i;ascii-numeric" "x-big" "99999%d"',
    "`:count`": b'header :count "gt" "x-big" "99999%d"',
    "`:contains`": b'header :contains "x-big" "word%d"',
}
FIELDS = {"one field of 100 kB": (1, 100_000), "1,000 fields of 100 octets": (1_000, 100), "one field of 1 MB": (1, 1_000_000), "10,000 fields of 100 octets": (10_000, 100)}


def message(count, size):
    fields = b"".join(b"X-Big: %d " % at + b"v" * (size - 10) + b"\r\n" for at in range(count))
    return b"From: bob@example.net\r\n" + fields + b"\r\nHi\r\n"


def took(script, octets):
    given = b"%d\n" % len(script) + script + octets
    assert ran([SIEVED], given).out == b"file INBOX\n"
    return least([SIEVED], given) * 1000


def main():
    head("A test over, us", *FORMS)
    for name, (count, size) in FIELDS.items():
        octets = message(count, size)
        empty = took(b"keep;\n", octets)
        tests = {form: REQUIRE + b"".join(b"if " + text % at + b" { discard; }\n" for at in range(TESTS)) for form, text in FORMS.items()}
        row(name, *(f"{max(took(script, octets) - empty, 0) / TESTS:.1f}" for script in tests.values()))


if __name__ == "__main__":
    main()
