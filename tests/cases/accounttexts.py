"""The texts of accounts, spelled from README.md of crates/store_text, and how a column of a file of cases has them.

A text is a list of pieces, so that a piece whose octets are all the same has room in a case. The SHA-256 is that of Python's hashlib.
"""
import hashlib

LIMIT = 33_554_432


class Long(bytes):
    """Octets that are all the same, so that a case has room for them."""


class Many(bytes):
    """A text many times, so that a case has room for it."""

    def __new__(cls, text, count):
        made = super().__new__(cls, text * count)
        made.text, made.count = text, count
        return made


def netstring(field):
    """A field is octets, a number, or a list of pieces."""
    pieces = field if isinstance(field, list) else [str(field).encode() if isinstance(field, int) else field]
    return [str(sum(len(piece) for piece in pieces)).encode() + b":", *pieces, b","]


def line(*fields):
    return [piece for field in fields for piece in netstring(field)] + [b"\n"]


def ended(pieces):
    """The pieces with the line of their SHA-256."""
    return pieces + line(b"sum", hashlib.sha256(b"".join(pieces)).hexdigest().encode())


OWNER = (b"alice", b"alice@example.com", b"salt", b"digest")
NUMBERS = (10000, 1, 1, 1)


def account(parts=(), owner=OWNER, numbers=NUMBERS, active=None, version=b"1"):
    pieces = line(b"sieved-account", version) + line(b"account", *owner, *([] if active is None else [active])) + line(b"numbers", *numbers)
    for part in parts:
        pieces += line(*part)
    return ended(pieces)


def percent(octets):
    """As a column of a table has it."""
    if isinstance(octets, Many):
        return f"%{{{percent(octets.text)}*{octets.count}}}"
    if isinstance(octets, Long):
        return f"%{{{chr(octets[0])}*{len(octets)}}}"
    return "".join(chr(o) if 32 < o < 127 and chr(o) not in "%#" else f"%{o:02X}" for o in octets)


def column(pieces):
    text = "".join(percent(piece) for piece in pieces)
    return {"": "-", "-": "%2D"}.get(text, text)
