"""Draws addresses from the grammar of Mailbox (RFC 5321, 4.1.2, with RFC 6531, 3.3), and near misses of them."""
import ipaddress
import re

ATEXT = "abcdefghijklmnopqrstuvwxyzABCXYZ0123456789!#$%&'*+-/=?^_`{|}~"
QTEXT = [chr(code) for code in range(32, 127) if chr(code) not in '"\\']
PAIRED = [chr(code) for code in range(32, 127)]
DCONTENT = [chr(code) for code in range(33, 127) if chr(code) not in "[\\]"]
WIDE = "öß中é𝄞"
LETTERS = "abcxyzABZ019"
VALID, INVALID = set(), set()


def is_mailbox(text):
    """Whether an address that was drawn here, or one of the fixed ones, is a Mailbox."""
    assert (text in VALID) != (text in INVALID), text
    return text in VALID


def some(draw, letters, least, most):
    return "".join(draw.choice(letters) for _ in range(draw.randint(least, most)))


def atom(draw):
    return some(draw, ATEXT + (WIDE if draw.random() < 0.2 else ""), 1, 8)


def dot_string(draw):
    return ".".join(atom(draw) for _ in range(draw.randint(1, 3)))


def quoted_string(draw):
    inside = [draw.choice(QTEXT) if draw.random() < 0.7 else "\\" + draw.choice(PAIRED) for _ in range(draw.randint(0, 12))]
    inside += draw.choice(["", "x, victim@example.com,", "> <", "-f root", "<a@b>", "(c)", "|sh", WIDE])
    return '"' + "".join(inside) + '"'


def label(draw):
    middle = some(draw, LETTERS + "-" + (WIDE if draw.random() < 0.2 else ""), 0, 6)
    return draw.choice(LETTERS) + middle + draw.choice(LETTERS)


def domain(draw):
    return ".".join(label(draw) for _ in range(draw.randint(1, 3)))


def literal(draw):
    number = lambda: str(draw.randint(0, 255))
    group = lambda: f"{draw.randint(0, 65_535):x}"
    groups = lambda least, most: ":".join(group() for _ in range(draw.randint(least, most)))
    four = ".".join(number() for _ in range(4))
    return "[" + draw.choice([four, "IPv6:" + groups(8, 8), f"IPv6:{groups(1, 3)}::{groups(1, 3)}", "IPv6:::", f"IPv6:{groups(1, 6)}::", f"IPv6:::{four}",
                              f"IPv6:{groups(6, 6)}:{four}", f"IPv6:{groups(1, 2)}::{groups(1, 2)}:{four}", "tag:" + some(draw, DCONTENT, 1, 9)]) + "]"


def mailbox(draw):
    local = draw.choice([dot_string, dot_string, quoted_string])(draw)
    return local + "@" + draw.choice([domain, domain, literal])(draw)


def near_miss(draw):
    a, q, d = dot_string(draw), quoted_string(draw), domain(draw)
    return draw.choice([
        f"{a} {a}@{d}", f"{a}, victim@example.com,@{d}", f".{a}@{d}", f"{a}.@{d}", f"{a}..{a}@{d}", f"{a}@{d}@{d}", f"{a}@", f"@{d}", a, d, f"{q}{a}@{d}", f"{a}{q}@{d}",
        f'{q}{q}@{d}', f"{q[:-1]}\\\"@{d}", f'"{a}"b"@{d}', f"{a}@-{d}", f"{a}@{d}-", f"{a}@{d}..{d}", f"{a}@.{d}", f"{a}@{d}.", f"{a}@{d}_x", f"{a}@[1.2.3]",
        f"{a}@[1.2.3.256]", f"{a}@[IPv6:1]", f"{a}@[IPv6:1::2::3]", f"{a}@[IPv6:12345::]", f"{a}@[IPv6:1:2:3:4:5:6:7::]", f"{a}@[1.2.3.4", f"{a}@1.2.3.4]", f"{a}@[]",
        f"{a}@[tag:]", f"{a}@[:x]", f"<{a}@{d}>", f"{a}@{d}>", f'"{a}\t"@{d}', f"({a}){a}@{d}", f"{a}@{d} ({a})", f"{a}@{d},{a}@{d}", f"{a};{a}@{d}", f"{a}\\,{a}@{d}",
        f'"\\ö"@{d}', f"{a}\x7f@{d}", f"{a}\x01@{d}", f"{a} -f root@{d}", f"<>@{d}", f"{a}:{a}@{d}", f"@{d}:{a}@{d}", f"{d}!{a}"])


HEX, SNUM = "[0-9A-Fa-f]{1,4}", "(?:[0-9]{1,2}|[01][0-9]{2}|2[0-4][0-9]|25[0-5])"
IPV4 = rf"{SNUM}(?:\.{SNUM}){{3}}"
# RFC 4291, sections 2.2 and 2.5.5, and RFC 5952, sections 1, 2 and 4; the rest are near misses and limits
IPV6 = """2001:db8:0:0:8:800:200c:417a ff01:0:0:0:0:0:0:101 0:0:0:0:0:0:0:1 0:0:0:0:0:0:0:0 2001:db8::8:800:200c:417a ff01::101 ::1 ::
0:0:0:0:0:0:13.1.68.3 0:0:0:0:0:ffff:129.144.52.38 ::13.1.68.3 ::ffff:129.144.52.38 2001:db8:0:cd30:: 2001:0db8:0000:cd30:0000:0000:0000:0000
2001:db8:0:0:1:0:0:1 2001:0db8:0:0:1:0:0:1 2001:db8::1:0:0:1 2001:db8::0:1:0:0:1 2001:0db8::1:0:0:1 2001:db8:0:0:1::1 2001:db8:aaaa:bbbb:cccc:dddd::1
2001:DB8:AAAA:BBBB:CCCC:DDDD:EEEE:AAaa 2001:db8:aaaa:bbbb:cccc:dddd:0:1 abcd:EF01:2345:6789:abcd:ef01:2345:6789
junk 1 1: :1 : ::: :::: 1::: :::1 1:::2 1::2::3 ::1:: ::1::2 1:2:3:4:5:6:7 1:2:3:4:5:6:7:8:9 1:2:3:4:5:6:7: :2:3:4:5:6:7:8 1:2:3:4:5:6:7:8: 1:2:3:4::5:6:7
1:2:3:4:5:6:7:: ::2:3:4:5:6:7:8 1:2:3:4:5:6:: ::1:2:3:4:5:6 1:2:3::4:5:6 1:2:3::4:5:6:7 1:2:3:4:5:6::8 1:2:3:4:5::8 1:2:3:4:5:6:7:8:: ::1:2:3:4:5:6:7:8
12345:: ::12345 0000:: 00000:: ::fffff ::g g:: 1:2:3:4:5:6:7:g 1:2:3:4:5:6:7:12345 ::-1 ::+1 ::0x1 ::1%eth0 ::1/64
1.2.3.4 1:1.2.3.4 1:2:3:4:5:1.2.3.4 1:2:3:4:5:6:1.2.3.4 1:2:3:4:5:6:7:1.2.3.4 1.2.3.4:: 1.2.3.4::1 ::1.2.3.4:1 1:2:3:4:5:1.2.3.4:7 :1.2.3.4 1::1.2.3.4
1:2:3:4::1.2.3.4 ::1:2:3:4:1.2.3.4 1:2::3:4:1.2.3.4 1:2:3::4:5:1.2.3.4 1:2:3:4:5::1.2.3.4 ::1:2:3:4:5:1.2.3.4 1::2:1.2.3.4 1:::1.2.3.4 ::1:1.2.3.4 1::2::1.2.3.4
::1.2.3 ::1.2.3.4.5 ::1.2.3. ::.2.3.4 ::1..3.4 ::256.2.3.4 ::1.2.3.256 ::1.2.3.255 ::0.0.0.0 ::01.2.3.4 ::001.002.003.004 ::0001.2.3.4 ::1.2.3.a ::a.2.3.4 ::1.2.3.999""".split()
IPV4S = ["0.0.0.0", "255.255.255.255", "1.2.3.4", "001.02.3.255", "256.1.1.1", "1.1.1.256", "1.2.3.0004", "1.2.3", "1.2.3.4.5", "1.2.3.", ".1.2.3", "1..2.3", "1.2.3.-4", "1.2.3.a",
         " 1.2.3.4", "1.2.3.4 ", "1.2.3.+4", "0x1.2.3.4", "1.2.3.999"]


def count(groups):
    """How many groups there are, with colons between; None where the text isn't that."""
    return groups.count(":") + 1 if re.fullmatch(rf"{HEX}(?::{HEX})*", groups) else None


def is_ipv6(text):
    """Whether it is an IPv6-addr (RFC 5321, 4.1.3): IPv6-full, IPv6v4-full, IPv6-comp or IPv6v4-comp, by productions. Python's ipaddress has three things otherwise: `::` may stand for
    one group, a zone may follow, and a number of an IPv4 address has no zero in front."""
    front, double, rest = text.partition("::")
    mixed = re.fullmatch(rf"(?:(.*):)?{IPV4}", rest if double else text)
    if not double:
        return count(text) == 8 or bool(mixed) and count(mixed[1] or "") == 6
    before = 0 if not front else count(front)
    behind = (0 if mixed[1] is None else count(mixed[1])) if mixed else 0 if not rest else count(rest)
    return before is not None and behind is not None and before + behind <= (4 if mixed else 6)


def is_known(kind, text):
    """Whether Python's ipaddress reads it."""
    try:
        return bool(kind(text)) or True
    except ValueError:
        return False


def numbered():
    """Address literals of numbers, each with whether it is one, and by whom that was said."""
    rows = [(f"[IPv6:{text}]", is_ipv6(text), is_known(ipaddress.IPv6Address, text), "IPv6-addr") for text in IPV6]
    rows += [(f"[{text}]", bool(re.fullmatch(IPV4, text)), is_known(ipaddress.IPv4Address, text), "IPv4-address-literal") for text in IPV4S]
    for literal, is_one, known, production in sorted(rows, key=lambda row: (row[3], row[1] != row[2])):
        yield literal, is_one, f"{production} by its productions (RFC 5321, 4.1.3)" + (", and by Python's ipaddress" if is_one == known else "; Python's ipaddress says otherwise")
    for tag, text in (("ipv6", "::1"), ("IPV6", "::1"), ("iPv6", "junk"), ("IPV6", "1:2"), ("ipv6", "")):
        yield f"[{tag}:{text}]", is_ipv6(text), "a string of ABNF is in upper or lower case (RFC 5234, 2.3)"
    for tag in ("IPv7", "IPv66", "IPv", "xIPv6", "IPv6-x", "v6"):
        yield f"[{tag}:junk]", True, "another tag: a General-address-literal (RFC 5321, 4.1.3)"
    for text in ("IPv6-:junk", "IPv6 ::1", "IPv6", "::1", ":::1", "IPv6;::1"):
        yield f"[{text}]", False, "not the tag, nor another one (RFC 5321, 4.1.3)"


def spoilt(draw):
    """What isn't UTF-8."""
    octets = draw.choice([b"gr\xf6\xdfe", b"\xff", b"\xc3", b"\xc0\x80", b"\xed\xa0\x80", b"\xf4\x90\x80\x80", b'"\x80"'])
    return octets + b"@" + domain(draw).encode()


def drawn(count, draw):
    """So many addresses of at most 200 octets, all different, half of them near misses."""
    valid, invalid = {mailbox(draw).encode(): None for _ in range(count)}, {near_miss(draw).encode(): None for _ in range(count)}
    invalid = {**{spoilt(draw): None for _ in range(count // 10)}, **invalid}
    valid, invalid = [*valid][:count // 2], [text for text in invalid if text not in valid][:count - count // 2]
    VALID.update(valid)
    INVALID.update(invalid)
    mixed = valid + invalid
    draw.shuffle(mixed)
    return mixed


VALID.update([b"far@example.com", b"l" * 100 + b"@example.com", b'"x, victim@example.com,"@evil.example', b'"> <"@evil.example', b"o" * 100 + b"@example.net"])
