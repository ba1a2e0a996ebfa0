#!/usr/bin/env python3
"""Writes crates/test_runs/data/dates.cases: texts of dates and near misses of them, zones, and the parts that come.

What is wanted comes from Python's datetime. The texts are those of RFC 5322, appendix A, those of the lists below, and some drawn
from the grammar of date-time (3.3, 4.3) with a fixed seed. Where Python's email.utils can read a text, what it reads is held
against what is wanted.

    python3 tests/cases/dates.py > crates/test_runs/data/dates.cases
"""
import email.utils, random
from datetime import datetime, timedelta, timezone

DAYS = "Mon Tue Wed Thu Fri Sat Sun".split()
MONTHS = "Jan Feb Mar Apr May Jun Jul Aug Sep Oct Nov Dec".split()
PARTS = "year month day date julian hour minute second time iso8601 std11 zone weekday".split()
NAMES = {"UT": 0, "GMT": 0, "EDT": -240, "EST": -300, "CDT": -300, "CST": -360, "MDT": -360, "MST": -420, "PDT": -420, "PST": -480}
# Python's years begin at 1, and 400 years have the same calendar: so a year below 400 is reckoned 400 years later.
CYCLE = 400 * 365 + 97


class Moment:
    """A date and time by the clock of its zone; a leap second is kept beside the datetime, whose second is then 59."""

    def __init__(self, when, early, leap, zone):
        self.when, self.early, self.leap, self.zone = when, early, leap, zone

    @staticmethod
    def of(year, month, day, hour, minute, second, zone):
        early = year < 400
        when = datetime(year + 400 * early, month, day, hour, minute, min(second, 59))
        return Moment(when, early, second == 60, zone)

    def year(self):
        return self.when.year - 400 * self.early

    def moved(self, zone):
        """The same moment in another zone, or None where the year is none of 0 to 9999."""
        try:
            there = Moment(self.when + timedelta(minutes=zone - self.zone), self.early, self.leap, zone)
        except OverflowError:
            return None
        return there if 0 <= there.year() <= 9999 else None

    def part(self, name):
        when, size = self.when, abs(self.zone)
        second = 60 if self.leap else when.second
        sign, hhmm = "-" if self.zone < 0 else "+", (size // 60, size % 60)
        day, clock = f"{self.year():04}-{when.month:02}-{when.day:02}", f"{when.hour:02}:{when.minute:02}:{second:02}"
        zone = f"{sign}{hhmm[0]:02}{hhmm[1]:02}"
        return {
            "year": f"{self.year():04}", "month": f"{when.month:02}", "day": f"{when.day:02}", "date": day,
            "julian": str((when - datetime(1858, 11, 17)).days - CYCLE * self.early),
            "hour": f"{when.hour:02}", "minute": f"{when.minute:02}", "second": f"{second:02}", "time": clock,
            "iso8601": f"{day}T{clock}" + (f"{sign}{hhmm[0]:02}:{hhmm[1]:02}" if self.zone else "Z"),
            "std11": f"{DAYS[when.weekday()]}, {when.day:02} {MONTHS[when.month - 1]} {self.year():04} {clock} {zone}",
            "zone": zone, "weekday": str((when.weekday() + 1) % 7),
        }[name.lower()]


# RFC 5322, A.1.1, A.1.3, A.3, A.5, A.6.2, A.6.3
EXAMPLES = [
    ("Fri, 21 Nov 1997 09:55:06 -0600", (1997, 11, 21, 9, 55, 6, -360)),
    ("Tue, 1 Jul 2003 10:52:37 +0200", (2003, 7, 1, 10, 52, 37, 120)),
    ("Mon, 24 Nov 1997 14:22:01 -0800", (1997, 11, 24, 14, 22, 1, -480)),
    ("Thu,\r\n      13\r\n        Feb\r\n          1969\r\n      23:32\r\n               -0330 (Newfoundland Time)", (1969, 2, 13, 23, 32, 0, -210)),
    ("21 Nov 97 09:55:06 GMT", (1997, 11, 21, 9, 55, 6, 0)),
    ("Fri, 21 Nov 1997 09(comment):   55  :  06 -0600", (1997, 11, 21, 9, 55, 6, -360)),
]

# By hand: limits, each name, each form
RIGHT = [
    ("1 Jan 0000 00:00:00 +0000", (0, 1, 1, 0, 0, 0, 0)), ("1 Jan 0001 00:00:00 +0000", (1, 1, 1, 0, 0, 0, 0)),
    ("29 Feb 0000 12:00 +0000", (0, 2, 29, 12, 0, 0, 0)), ("31 Dec 9999 23:59:59 +0000", (9999, 12, 31, 23, 59, 59, 0)),
    ("29 Feb 2000 00:00 +0000", (2000, 2, 29, 0, 0, 0, 0)), ("29 Feb 2024 00:00 +0000", (2024, 2, 29, 0, 0, 0, 0)),
    ("16 Nov 1858 00:00 +0000", (1858, 11, 16, 0, 0, 0, 0)), ("17 Nov 1858 00:00 +0000", (1858, 11, 17, 0, 0, 0, 0)),
    ("31 Dec 1998 23:59:60 +0000", (1998, 12, 31, 23, 59, 60, 0)), ("30 Jun 2015 23:59:60 -0400", (2015, 6, 30, 23, 59, 60, -240)),
    ("5 Oct 2026 10:00 +2359", (2026, 10, 5, 10, 0, 0, 1439)), ("5 Oct 2026 10:00 -2359", (2026, 10, 5, 10, 0, 0, -1439)),
    ("5 Oct 2026 10:00 -0000", (2026, 10, 5, 10, 0, 0, 0)), ("5 Oct 2026 10:00 -0001", (2026, 10, 5, 10, 0, 0, -1)),
    ("5 Oct 00 10:00 GMT", (2000, 10, 5, 10, 0, 0, 0)), ("5 Oct 26 10:00 GMT", (2026, 10, 5, 10, 0, 0, 0)),
    ("5 Oct 49 10:00 GMT", (2049, 10, 5, 10, 0, 0, 0)), ("5 Oct 50 10:00 GMT", (1950, 10, 5, 10, 0, 0, 0)),
    ("5 Oct 99 10:00 GMT", (1999, 10, 5, 10, 0, 0, 0)), ("5 Oct 000 10:00 GMT", (1900, 10, 5, 10, 0, 0, 0)),
    ("5 Oct 126 10:00 GMT", (2026, 10, 5, 10, 0, 0, 0)), ("5 Oct 999 10:00 GMT", (2899, 10, 5, 10, 0, 0, 0)),
    ("5 Oct 02026 10:00 GMT", (2026, 10, 5, 10, 0, 0, 0)), ("05 Oct 2026 10:00 GMT", (2026, 10, 5, 10, 0, 0, 0)),
    ("Mon,5 Oct 2026 10:00 GMT", (2026, 10, 5, 10, 0, 0, 0)), ("mON , 5 oCT 2026 10:00 gmt", (2026, 10, 5, 10, 0, 0, 0)),
    ("Sun, 5 Oct 2026 10:00 GMT", (2026, 10, 5, 10, 0, 0, 0)), ("5Oct2026 10:00GMT", (2026, 10, 5, 10, 0, 0, 0)),
    ("5 Oct 2026 10:00:00+0200", (2026, 10, 5, 10, 0, 0, 120)), ("5 Oct 2026(c)10:00 GMT", (2026, 10, 5, 10, 0, 0, 0)),
    (" \t5 Oct 2026 10:00 GMT \r\n", (2026, 10, 5, 10, 0, 0, 0)), ("(a)5(b)Oct(c)2026(d)10(e):(f)00(g):(h)01(i)+0200(j)", (2026, 10, 5, 10, 0, 1, 120)),
    ("5 Oct 2026 (a (b) \\) \\( c) 10:00 GMT", (2026, 10, 5, 10, 0, 0, 0)), ("5 Oct 2026 10:00 A", (2026, 10, 5, 10, 0, 0, 0)),
    ("5 Oct 2026 10:00 z", (2026, 10, 5, 10, 0, 0, 0)), ("5 Oct 2026 10:00 J", (2026, 10, 5, 10, 0, 0, 0)),
    ("5 Oct 2026 10:00 CEST", (2026, 10, 5, 10, 0, 0, 0)), ("5 Oct 2026 10:00 +0200 (CEST)", (2026, 10, 5, 10, 0, 0, 120)),
] + [(f"5 Oct 2026 10:00 {name}", (2026, 10, 5, 10, 0, 0, zone)) for name, zone in NAMES.items()] + [
    (f"{day}, {n + 4} Oct 2026 0{n}:00 GMT", (2026, 10, n + 4, n, 0, 0, 0)) for n, day in enumerate("Sun Mon Tue Wed Thu Fri Sat".split())] + [
    (f"28 {name} 2026 10:00 GMT", (2026, n + 1, 28, 10, 0, 0, 0)) for n, name in enumerate(MONTHS)]

# Near misses, each of one production
WRONG = """30 Feb 2026 10:00 GMT|29 Feb 2026 10:00 GMT|29 Feb 1900 10:00 GMT|31 Apr 2026 10:00 GMT|31 Jun 2026 10:00 GMT|31 Sep 2026 10:00 GMT|31 Nov 2026 10:00 GMT
0 Oct 2026 10:00 GMT|32 Oct 2026 10:00 GMT|005 Oct 2026 10:00 GMT|5 Okt 2026 10:00 GMT|5 October 2026 10:00 GMT|5 10 2026 10:00 GMT|5 Oct 6 10:00 GMT
5 Oct 10000 10:00 GMT|5 Oct 18446744073709551616 10:00 GMT|5 Oct 18446744073709553642 10:00 GMT|5 Oct 2026 24:00 GMT|5 Oct 2026 10:60 GMT|5 Oct 2026 10:00:61 GMT
5 Oct 2026 1:00 GMT|5 Oct 2026 010:00 GMT|5 Oct 2026 10:0 GMT|5 Oct 2026 10:000 GMT|5 Oct 2026 10:00:0 GMT|5 Oct 2026 10:00:000 GMT|5 Oct 2026 10 GMT|5 Oct 2026 10: GMT
5 Oct 2026 10:00: GMT|5 Oct 2026 10:00:00:00 GMT|5 Oct 2026 10.00 GMT|5 Oct 2026 10:00|5 Oct 2026 10:00:00|5 Oct 2026 GMT|5 Oct 10:00 GMT|5 2026 10:00 GMT
Oct 2026 10:00 GMT|Mon 5 Oct 2026 10:00 GMT|Mon, Mon, 5 Oct 2026 10:00 GMT|, 5 Oct 2026 10:00 GMT|Monday, 5 Oct 2026 10:00 GMT|Mo, 5 Oct 2026 10:00 GMT|Mon,
5 Oct 2026 10:00 +2400|5 Oct 2026 10:00 +0060|5 Oct 2026 10:00 -2400|5 Oct 2026 10:00 +200|5 Oct 2026 10:00 +02000|5 Oct 2026 10:00 +02:00|5 Oct 2026 10:00 + 0200
5 Oct 2026 10:00 0200|5 Oct 2026 10:00 +|5 Oct 2026 10:00 -|5 Oct 2026 10:00 G1|5 Oct 2026 10:00 GMT GMT|5 Oct 2026 10:00 GMT+2|5 Oct 2026 10:00 GMT 1|5 Oct 2026 10:00 GMT.
5 Oct 2026 (c 10:00 GMT|5 Oct 2026 10:00 GMT (c|5 Oct 2026 10:00 GMT (c (d)|5 Oct 2026 10:00 GMT (c\\)|5 Oct 2026 10:00 GMT )|5 Oct 202610:00 GMT|5 Oct 2026 1(c)0:00 GMT
5 O(c)ct 2026 10:00 GMT|2026-10-05T10:00:00Z|5/10/2026 10:00 GMT|1700000000|GMT|()|Mon, 5 Oct 2026 10:00 "GMT"|5-Oct-2026 10:00 GMT|x 5 Oct 2026 10:00 GMT"""

GOOD_ZONES = ["+0000", "-0000", "+0200", "-0330", "+0530", "+1400", "-2359", "+2359"]
BAD_ZONES = ["+2400", "-2400", "+0060", "+0099", "+200", "+02000", "0200", "+", "-02:00", "+02:00", "GMT", "EST", "Z", "+ 0200", " +0200", "+0200 ", "+02a0", "--0200", "+-200"]


def written(octets):
    text = "".join(c if 32 <= ord(c) < 127 and c != "%" else f"%{ord(c):02X}" for c in octets)
    text = "%20" + text[1:] if text.startswith(" ") else text
    text = text[:-1] + "%20" if text.endswith(" ") else text
    return {"": "-", "-": "%2D"}.get(text, text)


def row(text, zone, part, wanted):
    print("\t".join(map(written, [text, zone, part, wanted])))


def shown(text, fields, zone, part):
    """A row of a date in a zone, or in its own."""
    moment = Moment.of(*fields)
    if zone:
        there = int(zone[1:3]) * 60 + int(zone[3:])
        moment = moment.moved(-there if zone[0] == "-" else there)
    row(text, zone, part, moment.part(part) if moment else "none")


def agreed(text, fields):
    """email.utils reads the same, where it reads the form: years of four digits from 1 on, names that it knows, no leap second."""
    year, month, day, hour, minute, second, zone = fields
    known = not any(mark in text for mark in "(\r") and " " in text and year > 999 and f" {year}" in text and second < 60
    got = email.utils.parsedate_tz(text) if known else None
    if got and text.split()[-1].upper() in NAMES or got and text[-5] in "+-":
        assert got[:6] == fields[:6] and (got[9] or 0) == zone * 60, (text, got)


def gap(draw):
    return draw.choice(["", "", " ", "  ", "\t", "(x)", " (a (b) c) ", "\r\n ", " (\\)) "])


def drawn(draw):
    """A text of the grammar with its fields."""
    when = datetime(1, 1, 1) + timedelta(days=draw.randrange(3_652_059), seconds=draw.randrange(86_400))
    zone, seconds = draw.randint(-1439, 1439), draw.random() < 0.7
    name = draw.choice(["", DAYS[when.weekday()] + gap(draw) + "," + gap(draw)])
    size = abs(zone)
    text = (gap(draw) + name + str(when.day) + gap(draw) + MONTHS[when.month - 1] + gap(draw) + f"{when.year:04}" + draw.choice([" ", "(c)"]) + gap(draw)
            + f"{when.hour:02}" + gap(draw) + ":" + gap(draw) + f"{when.minute:02}" + gap(draw)
            + (":" + gap(draw) + f"{when.second:02}" + gap(draw) if seconds else "")
            + ("-" if zone < 0 else "+") + f"{size // 60:02}{size % 60:02}" + gap(draw))
    text = draw.choice([str, str.lower, str.upper])(text)
    return text, (when.year, when.month, when.day, when.hour, when.minute, when.second if seconds else 0, zone)


def main():
    draw = random.Random(5260)
    print("# Written by tests/cases/dates.py: the text of a date field, or @ and the seconds of a moment since 1970; a zone, or - for that of the text;\n"
          "# a part of RFC 5260, 4.2, and its text, or none where there is no such date, zone or part. Values by Python's datetime.\n\n"
          "# RFC 5322, appendix A")
    for text, fields in EXAMPLES:
        agreed(text, fields)
        shown(text, fields, "", "std11")
        shown(text, fields, "+0000", "iso8601")
    print("\n# Limits, names and forms")
    for number, (text, fields) in enumerate(RIGHT):
        agreed(text, fields)
        shown(text, fields, "", "iso8601")
        shown(text, fields, GOOD_ZONES[number % 8], "std11")
    print("\n# Near misses")
    for text in WRONG.replace("\n", "|").split("|") + [""]:
        row(text, "", "std11", "none")
    print("\n# Each part, in each zone")
    for number, part in enumerate(PARTS + [part.upper() for part in PARTS]):
        for text, fields in [EXAMPLES[0], RIGHT[0], RIGHT[8]]:
            shown(text, fields, (GOOD_ZONES + [""])[number % 9], part)
    print("\n# Zones and parts that are none")
    for zone in BAD_ZONES:
        row("5 Oct 2026 10:00 GMT", zone, "hour", "none")
    for part in ["years", "yea", "", "iso", "iso8601 ", "std12", "dow"]:
        row("5 Oct 2026 10:00 GMT", "", part, "none")
    print("\n# Past the years, and just within")
    for text, fields in [("1 Jan 0000 00:00 +0000", (0, 1, 1, 0, 0, 0, 0)), ("31 Dec 9999 23:59:59 +0000", (9999, 12, 31, 23, 59, 59, 0)),
                         ("1 Jan 0000 00:00 +2359", (0, 1, 1, 0, 0, 0, 1439)), ("31 Dec 9999 23:59 -2359", (9999, 12, 31, 23, 59, 0, -1439))]:
        for zone in ["+2359", "-2359", "+0001", "-0001", "+0000"]:
            shown(text, fields, zone, "std11")
    print("\n# Moments")
    for seconds in [0, 1, 59, 60, 86_399, 86_400, 951_782_400, 1_700_000_000, 4_102_444_800, 253_402_300_799]:
        for zone in ["+0000", "-0330", "-2359"]:
            when = datetime(1970, 1, 1) + timedelta(seconds=seconds)
            fields = (when.year, when.month, when.day, when.hour, when.minute, when.second, 0)
            shown_moment = Moment.of(*fields).moved((-1 if zone[0] == "-" else 1) * (int(zone[1:3]) * 60 + int(zone[3:])))
            row(f"@{seconds}", zone, "std11", shown_moment.part("std11"))
    for text, zone, wanted in [("@253402300799", "+0001", "none"), ("@253402300800", "+0000", "none"), ("@253402300800", "-0001", "9999-12-31T23:59:00-00:01"),
                               ("@253402387139", "-2359", "9999-12-31T23:59:59-23:59"), ("@253402387140", "-2359", "none"), ("@18446744073709551615", "-2359", "none")]:
        row(text, zone, "iso8601", wanted)
    print("\n# Drawn from the grammar")
    for number in range(120):
        text, fields = drawn(draw)
        shown(text, fields, draw.choice(GOOD_ZONES + [""]), PARTS[number % 13])
    print("\n# Long texts\n%{(*5000}%{)*5000}5 Oct 2026 10:00 GMT\t-\thour\t10\n%{(*5000}%{)*4999}5 Oct 2026 10:00 GMT\t-\thour\tnone\n"
          "5%{%20*60000}Oct 2026 10:00 GMT\t-\thour\t10\n5 Oct %{0*60000}2026 10:00 GMT\t-\tyear\t2026\n5 Oct 2026 10:00 %{x*60000}\t-\tzone\t+0000")


if __name__ == "__main__":
    main()
