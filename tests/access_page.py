"""The program examples/access_page.c as an office runs it: access_page.py PROGRAM.

Dates: each of the 47,482 days that have a date, and 64 days after them, is the end day of a login on a page that the program prints of an
image; the lines are held to those that Python's datetime and formatting give. Bad input: the exit status and the message."""

import datetime
import pathlib
import subprocess
import sys
import tempfile

LAST_DAY = (datetime.date(2099, 12, 31) - datetime.date(1970, 1, 1)).days
LINES = 64
SILENCE = 365
DOORS = 4  # each with a byte of misses
KIND = 26  # of a checkpoint that has the notices


def number(value, size):
    return value.to_bytes(size, "little")


def image(agreed, rows):
    """An image of a node at seat 0 with these logins: (login, end day, rights)."""
    head = number(1108, 2) + number(KIND, 2) + number(1, 4) + number(agreed, 4) + bytes([1, 1, 0, 1]) + number(SILENCE, 2) + bytes([7, 2])
    seats = bytes([2]) + number(1, 4) + bytes(31 * 5)
    logins = b"".join(number(login, 4) + number(end, 4) + number(rights, 2) for login, end, rights in rows)
    own = bytes([0]) + number(1, 4) + bytes(25 + DOORS)
    return head + seats + bytes(1 + 16 * 18) + bytes([len(rows)]) + logins.ljust(640, b"\0") + own


def line(row, day):
    """The line of a row whose state is not silent on that day."""
    login, end, rights = row
    date = "-" * 10 if end > LAST_DAY else (datetime.date(1970, 1, 1) + datetime.timedelta(days=end)).isoformat()
    places = "".join(chr(ord("A") + i) if rights >> i & 1 else "-" for i in range(16))
    return f"{login:>10} {date} {places} {'ended' if end < day else 'open':<7}\n"


def run(program, *words, out=subprocess.PIPE):
    return subprocess.run([program, *map(str, words)], stdout=out, stderr=subprocess.PIPE, check=False)


def wrong_dates(program, path):
    """The first day of each page that differs; the given day lies in the middle, so that half of the logins are ended."""
    for first in range(0, LAST_DAY + 1 + LINES, LINES):
        rows = [(1 + end, end, 1 + end * 40503 % 65535) for end in range(first, first + LINES)]
        agreed = first + LINES // 2
        path.write_bytes(image(agreed, rows))
        ran = run(program, path, agreed)
        if (ran.returncode, ran.stdout.decode()) != (0, "".join(line(row, agreed) for row in rows)):
            yield f"the page of the days from {first} on differs from the platform's calendar"


def cases(folder):
    """Words, the exit status, and what is printed or said."""
    good = image(100, [(501, 120, 1)])
    older = number(1106, 2) + number(16, 2) + good[4:18] + good[20:]  # as it was before the notices
    files = {"good": good, "empty": b"", "none": image(100, []), "short": good[:-1], "long": good + b"\0", "older": older}
    files |= {"kind": good[:2] + b"\x11" + good[3:], "notice": good[:18] + b"\0" + good[19:]}
    for name, content in files.items():
        (folder / name).write_bytes(content)
    yield ["good", 120], 0, line((501, 120, 1), 120)
    yield ["good", 100 + SILENCE + 1], 0, "silent"
    yield ["good", 4294967295], 0, "silent"
    yield ["none", 0], 0, ""
    for name in ["empty", "short", "long", "older"]:
        yield [name, 120], 1, "no image, which has 1,144 bytes"
    for name in ["kind", "notice"]:
        yield [name, 120], 1, "no well-formed image"
    for words in [[], ["good"], ["good", 1, 2]]:
        yield words, 2, "usage: access_page IMAGE DAY"
    for day in ["", "-1", "12x", " 1", "4294967296", "99999999999999999999", "1970-05-01"]:
        yield ["good", day], 2, "not a count from 1970-01-01"
    yield ["nowhere", 120], 2, "No such file"
    yield [".", 120], 2, "Is a directory"


def wrong_answers(program, folder):
    for words, status, said in cases(folder):
        ran = run(program, *[folder / word if i == 0 else word for i, word in enumerate(words)])
        heard = (ran.stdout if status == 0 else ran.stderr).decode()
        if ran.returncode != status or said not in heard or (status != 0 and ran.stdout):
            yield f"{words}: status {ran.returncode} and {heard!r}, not {status} and {said!r}"
    with open("/dev/full", "wb") as full:
        if run(program, folder / "good", 120, out=full).returncode != 2:
            yield "a page that can't be written is not told"


def main(program):
    with tempfile.TemporaryDirectory() as name:
        folder = pathlib.Path(name)
        wrong = [*wrong_answers(program, folder), *wrong_dates(program, folder / "image")]
    print("\n".join(wrong) or f"{LAST_DAY + 1} dates as the platform's calendar has them")
    return 1 if wrong or LAST_DAY != 47481 else 0


sys.exit(main(sys.argv[1]))
