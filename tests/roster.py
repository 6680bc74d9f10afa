"""The program records on rosters, with Python's csv module as a third opinion: roster.py RECORDS.

`records roster read` is run on many rosters, well formed and damaged. Whether it takes one, and the announcements that it writes, are held to
what csv gives for it, with the fields judged by regular expressions and datetime. `records roster write` is held to csv.writer, every date to
datetime.

Request A2 asks for RFC 4180, strictly. csv follows what spreadsheets write, so it takes more. It differs, even with strict=True, in two points,
and both ways round no other difference is accepted here:

- line ends: csv takes a bare LF or a bare CR for one; RFC 4180 has CR LF only.
- empty lines: csv gives a row without fields, which its users pass over; in RFC 4180 it is a record with one empty field.

Without strict=True it takes two things more, so strict=True is used:

- text behind a closing quote: csv adds it to the field ("50"1 is 501); in RFC 4180 the field ends with its quote.
- a quote that is not closed: csv takes the rest of the file as the field; RFC 4180 needs the closing quote.

One point differs and doesn't show: csv takes a quote, or a byte that is no text, within a field that is not quoted, where RFC 4180 has none. No
login, date or rights has such a character, so the field is refused by its own rule.
"""

import csv
import datetime
import io
import pathlib
import random
import re
import subprocess
import sys

CYCLE, DAY = 4294967200, 101
FIRST, LAST = datetime.date(1970, 1, 1), datetime.date(2099, 12, 31)
EXAMPLE = pathlib.Path(__file__).resolve().parent.parent / "examples" / "roster.csv"
LINE = "501,2026-12-31,0001"
ROSTERS = 2500


def grant(cycle, login, end, rights):
    numbers = [(22, 2), (8, 2), (cycle, 4), (DAY, 4), (login, 4), (end, 4), (rights, 2), (0, 2)]
    return b"".join(value.to_bytes(size, "little") for value, size in numbers)


def values(fields):
    """The three values of a line, or None where a field is malformed."""
    forms = ["[0-9]{1,10}", "[0-9]{4}-[0-9]{2}-[0-9]{2}", "[0-9A-Fa-f]{4}"]
    if len(fields) != 3 or not all(re.fullmatch(form, field) for form, field in zip(forms, fields)):
        return None
    try:
        end = datetime.date.fromisoformat(fields[1])
    except ValueError:
        return None
    login, rights = int(fields[0]), int(fields[2], 16)
    good = 1 <= login <= 4294967295 and FIRST <= end <= LAST and rights != 0
    return (login, (end - FIRST).days, rights) if good else None


def by_csv(roster, strict=True):
    """The announcements by csv, or None where the roster is malformed. Rows without fields are passed over, as csv's users do."""
    try:
        rows = list(csv.reader(io.StringIO(roster.decode("latin-1"), newline=""), strict=strict))
    except csv.Error:
        return None
    lines = [values(row) for row in rows if row]
    if None in lines or len(lines) > 64 or (lines and CYCLE + len(lines) - 1 > 4294967294):
        return None
    return b"".join(grant(CYCLE + i, *line) for i, line in enumerate(lines))


def by_records(program, roster):
    """The announcements by `records roster read`, or None where it refuses the roster with a message about a line."""
    ran = subprocess.run([program, "roster", "read", str(CYCLE), str(DAY)], input=roster, capture_output=True, check=False)
    if ran.returncode == 0:
        return ran.stdout
    assert ran.returncode == 1 and not ran.stdout and re.match(rb"line [0-9]+(, field [0-9]+|: )", ran.stderr), ran
    return None


def known_difference(roster):
    """Whether the roster has, outside of quotes, a bare CR or LF or an empty line: what csv takes and RFC 4180 does not."""
    bare = re.sub(rb'"(?:[^"]|"")*"', b"x", roster)
    is_bare = re.search(rb"\r(?!\n)|(?<!\r)\n", bare)
    lines = bare.split(b"\r\n")
    if lines[-1] == b"":
        lines.pop()
    return bool(is_bare) or b"" in lines


def complaint(program, roster):
    """What is wrong with the answer for a roster, or None."""
    ours, other = by_records(program, roster), by_csv(roster)
    if ours == other or (ours is None and known_difference(roster)):
        return None
    return f"{roster!r}: records {'refuses' if ours is None else 'takes'} it, csv does not agree"


def any_login(rng):
    return rng.choice(["1", "4294967295", "0000000501", "0", "4294967296", "00000000501", " 501", "501 ", "", "+1", "1_0", "\u00b2",
                       *(str(rng.randrange(1, 10**digits)) for digits in range(1, 11))])


def any_date(rng):
    days = FIRST + datetime.timedelta(days=rng.randrange(-40, 47482 + 40))
    near = f"{rng.randrange(1969, 2102)}-{rng.randrange(0, 14):02}-{rng.randrange(0, 33):02}"
    return rng.choice([str(days), str(days), str(days), near, "2000-02-29", "2023-02-29", "2099-12-31", "2100-01-01", "20240101", "2024-W01-1"])


def any_rights(rng):
    number = rng.randrange(0, 65536)
    return rng.choice([f"{number:04x}", f"{number:04X}", f"{number:04X}", "0000", "0001", "FFFF", "00001", "0x01", "001", "0_01"])


def any_field(rng, content):
    if rng.random() < 0.3:
        content = '"' + content.replace('"', '""') + '"'
    return content


def any_roster(rng):
    """Lines of fields of which most are good; damaged in half of the rosters."""
    count = rng.choice([0, 1, 1, 1, 2, 2, 3, 63, 64, 65])
    fields = [[any_login, any_date, any_rights], [lambda _: "501", lambda _: "2026-12-31", lambda _: "0001"]]
    lines = [",".join(any_field(rng, make(rng)) for make in rng.choices(fields, [1, 3])[0]) for _ in range(count)]
    roster = ("\r\n".join(lines) + rng.choice(["", "\r\n"])).encode("latin-1")
    for _ in range(rng.choice([0, 0, 1, 1, 2])):
        at, size = rng.randrange(len(roster) + 1), rng.choice([0, 0, 1, 2])
        piece = rng.choice([b'"', b'""', b",", b"\r", b"\n", b"\r\n", b"\r\n\r\n", b" ", b";", b"0", b"\xef\xbb\xbf", b""])
        roster = roster[:at] + piece + roster[at + size:]
    return roster


# What csv takes, with strict=True and without, and RFC 4180 does not: each shows that the difference is still there.
STRICT = [f"{LINE}\n", f"{LINE}\r", f"{LINE}\n{LINE}\n", f"{LINE}\r{LINE}\r\n", f"{LINE}\r\n\r\n", f"\r\n{LINE}\r\n", f"{LINE}\r\n\r\n{LINE}\r\n", "\r\n", "\n"]
LENIENT = ['"50"1,2026-12-31,0001\r\n', '"501",2026-12-31,"000"1', '501,2026-12-31,"0001', f'{LINE}\r\n501,2026-12-31,"0001']
# What csv reads as a field and no field may be.
FIELDS = ['5"01,2026-12-31,0001', '501,2026-12-31,0001"', "501,2026-12-31,0001\0", "501\x7f,2026-12-31,0001", "\u00e9,2026-12-31,0001"]


def wrong_differences(program):
    for text in STRICT:
        if by_records(program, text.encode()) is not None or by_csv(text.encode()) is None or not known_difference(text.encode()):
            yield f"{text!r} is no longer a difference"
    for text in LENIENT:
        if by_records(program, text.encode()) is not None or by_csv(text.encode()) is not None or by_csv(text.encode(), strict=False) is None:
            yield f"{text!r} is no longer a difference of csv without strict"
    for text in FIELDS:
        rows = list(csv.reader([text], strict=True))
        if len(rows[0]) != 3 or by_records(program, text.encode("latin-1")) is not None:
            yield f"{text!r} is not three fields for csv, or taken"


def wrong_dates(program):
    """Every date in rosters of 64 lines, and what is written of them against csv.writer."""
    dates = [FIRST + datetime.timedelta(days=days) for days in range((LAST - FIRST).days + 1)]
    for first in range(0, len(dates), 64):
        rows = [[str(1 + i), date.isoformat(), f"{1 + i * 40503 % 65535:04X}"] for i, date in enumerate(dates[first:first + 64], first)]
        text = io.StringIO(newline="")
        csv.writer(text, lineterminator="\r\n").writerows(rows)
        roster = text.getvalue().encode()
        announcements = by_records(program, roster)
        written = subprocess.run([program, "roster", "write"], input=announcements, capture_output=True, check=False)
        if announcements != by_csv(roster) or (written.returncode, written.stdout) != (0, roster):
            yield f"the dates from {rows[0][1]} on are not read or written as csv has them"


def main(program):
    rng = random.Random(4180)
    rosters = [EXAMPLE.read_bytes(), b"", *(any_roster(rng) for _ in range(ROSTERS))]
    taken = sum(by_csv(roster) is not None for roster in rosters)
    wrong = [line for line in (complaint(program, roster) for roster in rosters) if line]
    wrong += [*wrong_differences(program), *wrong_dates(program)]
    if not by_csv(EXAMPLE.read_bytes()) or not ROSTERS / 5 < taken < ROSTERS * 4 / 5:
        wrong.append(f"{taken} of {len(rosters)} rosters are well formed")
    print("\n".join(wrong) or f"{len(rosters)} rosters, {taken} of them well formed, and every date as Python's csv and datetime have them")
    return 1 if wrong else 0


sys.exit(main(sys.argv[1]))
