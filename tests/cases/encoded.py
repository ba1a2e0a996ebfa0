#!/usr/bin/env python3
"""Writes the last section of crates/test_runs/data/scripts.cases: strings at random behind a `require` of `encoded-character`, as names of
folders. What they stand for comes from the model below, written from the grammar of RFC 5228, 2.4.2.4.

    python3 tests/cases/encoded.py
"""
import random, re

BLANK = rb"(?:[ \t]|\r\n)"
HEX = re.compile(rb"\$\{hex:(%s*[0-9a-f]{1,2}(?:%s+[0-9a-f]{1,2})*%s*)\}" % (BLANK, BLANK, BLANK), re.I)
UNICODE = re.compile(rb"\$\{unicode:(%s*[0-9a-f]+(?:%s+[0-9a-f]+)*%s*)\}" % (BLANK, BLANK, BLANK), re.I)
EITHER = re.compile(HEX.pattern + b"|" + UNICODE.pattern, re.I)
PIECES = ["${hex:", "${HeX:", "${unicode:", "${UNIcode:", "$", "{", "}", "}", "}", " ", "  ", ":", "4", "41", "7a", "e9", "C3", "A9", "041", "24", "7B",
          "d7ff", "D800", "20ac", "1f600", "10FFFF", "110000", "00000041", "x", "hex:", "Z"]


def value(found):
    octets, characters = found.groups()
    if octets is not None:
        return bytes(int(word, 16) for word in octets.split())
    numbers = [int(word, 16) for word in characters.split()]
    if any(0xD800 <= number <= 0xDFFF or number > 0x10FFFF for number in numbers):
        raise ValueError
    return "".join(map(chr, numbers)).encode()


def wanted(text):
    try:
        name = EITHER.sub(value, text.encode())
    except ValueError:
        return "line 1: no such character"
    try:
        name.decode()
    except UnicodeDecodeError:
        return "line 1: bad mailbox name"
    if not 1 <= len(name) <= 255 or any(octet < 32 or octet == 127 for octet in name):
        return "line 1: bad mailbox name"
    return "file " + "".join(chr(octet) if 33 <= octet <= 126 and octet != 37 else "%%%02X" % octet for octet in name)


def text_of(draw):
    """Pieces at random, half of them shaped as a sequence."""
    text = ""
    for _ in range(draw.randint(1, 3)):
        if draw.random() < 0.6:
            words = [draw.choice(PIECES[12:-3]) for _ in range(draw.randint(1, 3))]
            text += draw.choice(PIECES[:4]) + draw.choice(["", " "]) + draw.choice([" ", "  ", " "]).join(words) + draw.choice(["", " "]) + draw.choice(["}", "}", "}", "", "x}"])
        else:
            text += "".join(draw.choice(PIECES) for _ in range(draw.randint(1, 6)))
    return text


def main():
    draw = random.Random(5228)
    for _ in range(120):
        text = text_of(draw)
        print(f'\n== script RFC 5228, 2.4.2.4: at random, by the model of tests/cases/encoded.py\nrequire ["fileinto", "encoded-character"]; fileinto "{text}";\n== wanted\n{wanted(text)}')


main()
