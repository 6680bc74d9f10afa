"""The program examples/key_shares.c as trustees run it: key_shares.py PROGRAM.

Shares that the program writes are merged here, and shares that are made here are merged by the program, both by this file's own arithmetic in the
field of 256 elements and Lagrange's formula; so are renewal files, and the shares that they make. Bad input: the exit status, the message, and that
no file is new or changed. The first difference ends the run. Choices are drawn from a fixed seed; the program's own random bytes are new in each
run."""

import collections
import functools
import itertools
import operator
import os
import pathlib
import random
import resource
import subprocess
import sys
import tempfile

KEY, NAME = 32, 8
HEAD = NAME + 3  # of a share file: name of the set, k, n, number
SHARE_FILE, RENEWAL_FILE = HEAD + KEY, NAME + HEAD + KEY
ZERO = bytes(KEY)
PAIRS = [(k, n) for n in range(2, 17) for k in range(2, n + 1)]
SMALL = [(2, 2), (2, 3), (3, 3), (2, 4), (3, 4), (4, 4), (2, 5)]  # with all choices and orders
MIDDLE = [(3, 5), (4, 6), (5, 7)]  # with all choices
NO_NUMBERS = ["", "two", "+2", "-2", " 2", "2 ", "2x", "2.0", "0x2", "4294967298", "18446744073709551618"]
OUT_OF_RANGE = [(0, 0), (0, 2), (1, 1), (1, 2), (1, 16), (2, 0), (2, 1), (3, 2), (16, 15), (2, 17), (16, 17), (17, 17), (17, 2), (258, 259),
                (2, 258), (4294967295, 4294967295)]
WRONG_IN_FILE = [(0, 3), (1, 3), (4, 3), (2, 17), (17, 17), (255, 255)]
USAGE = """usage: key_shares split K N KEY-FILE PREFIX (2 <= K <= N <= 16)
       key_shares merge KEY-FILE SHARE-FILE.. (up to 16)
       key_shares renewal SHARE-FILE PREFIX
       key_shares renew NEW-SHARE-FILE SHARE-FILE RENEWAL-FILE
"""


def expect(holds, message):
    if not holds:
        sys.exit(f"key_shares: {message}")


# The field: bytes are polynomials over two elements, and products are reduced by 0x11B.


def product(a, b):
    """Shift and reduce."""
    result = 0
    while b:
        result ^= a if b & 1 else 0
        a = a << 1 ^ (0x11B if a & 0x80 else 0)
        b >>= 1
    return result


PRODUCTS = [bytes(product(a, b) for b in range(256)) for a in range(256)]
INVERSES = [row.find(1) for row in PRODUCTS]


def times(factor, string):
    """Each byte times the factor."""
    return string.translate(PRODUCTS[factor])


def add(*strings):
    return bytes(functools.reduce(operator.xor, column) for column in zip(*strings))


def weight(numbers, own, at):
    """What the share with its own number counts in the value at another place."""
    result = 1
    for other in numbers:
        if other != own:
            result = product(result, product(at ^ other, INVERSES[own ^ other]))
    return result


def value(shares, at):
    """Lagrange: the value at a place of the polynomials that the shares, by number, lie on. The key is the value at 0."""
    return add(*(times(weight(shares, number, at), share) for number, share in shares.items()))


def coefficients(shares, k):
    """Those of the polynomials that k shares lie on, in rising degree: the value at 0 is the lowest; without it and divided by their numbers, the
    shares lie on polynomials of one degree less."""
    left, found = dict(list(shares.items())[:k]), []
    while left:
        found.append(value(left, 0))
        left.popitem()
        left = {number: times(INVERSES[number], add(share, found[-1])) for number, share in left.items()}
    return found


def shares_of(key, k, n, rng):
    """Horner: shares of a key, by number, with coefficients drawn here."""
    terms = [key, *(rng.randbytes(KEY) for _ in range(k - 1))]
    return {number: functools.reduce(lambda so_far, term: add(times(number, so_far), term), reversed(terms)) for number in range(1, n + 1)}


# The program and its files.


class Folder:
    """A folder in which the program runs."""

    def __init__(self, program, path):
        self.program, self.path = str(pathlib.Path(program).resolve()), pathlib.Path(path)

    def run(self, *words, **options):
        """Under the most permissive umask, so that the files' modes are the program's doing."""
        options = {"stdout": subprocess.PIPE, **options}
        return subprocess.run([self.program, *map(str, words)], cwd=self.path, stderr=subprocess.PIPE, umask=0, check=False, **options)

    def write(self, name, content):
        (self.path / name).write_bytes(content)
        return name

    def write_share(self, name, k, n, number, share, set_name=b"set-name"):
        """A share file; a renewal file where the name of the set that it renews stands before that of the set."""
        return self.write(name, set_name + bytes([k, n, number]) + share)

    def read(self, name):
        """A file that its owner alone can read."""
        mode = (self.path / name).stat().st_mode & 0o7777
        expect(mode == 0o600, f"{name} has mode {mode:o}")
        return (self.path / name).read_bytes()

    def content(self):
        return {path.name: path.read_bytes() for path in self.path.iterdir() if path.is_file()}

    def succeeds(self, line, *words, **options):
        ran = self.run(*words, **options)
        expect((ran.returncode, ran.stdout, ran.stderr) == (0, line.encode(), b""), f"{words}: {ran}")

    def names(self, prefix, n):
        """The names of the files for n shares by number; there are no others with this prefix."""
        names = {number: f"{prefix}.{number}" for number in range(1, n + 1)}
        found = {path.name for path in self.path.glob(f"{prefix}.*")}
        expect(found == set(names.values()), f"of {n} files for {prefix} there are {sorted(found)}")
        return names

    def split(self, key, k, n, prefix, **options):
        """Splits by the program; the names of the share files by number."""
        self.succeeds(f"{n} shares, any {k} of them give the key\n", "split", k, n, self.write("key", key), prefix, **options)
        return self.names(prefix, n)

    def merge(self, key, names, **options):
        """Merges by the program, to a new file, which is removed again."""
        self.succeeds("", "merge", "merged", *names, **options)
        expect(self.read("merged") == key, f"merge of {names} gives another key")
        self.remove(["merged"])

    def renewal(self, share_file, n, prefix, **options):
        """Makes a renewal by the program; the names of the renewal files by number."""
        self.succeeds(f"{n} renewal files, each for the share with its number\n", "renewal", share_file, prefix, **options)
        return self.names(prefix, n)

    def renew(self, new, share_file, renewal_file, **options):
        """Renews one share by the program; the sum is this file's, and no other file is new or changed."""
        before = self.content()
        self.succeeds("", "renew", new, share_file, renewal_file, **options)
        share, added = before[share_file][HEAD:], before[renewal_file]
        made = added[NAME:NAME + HEAD] + add(share, added[NAME + HEAD:])
        expect(self.read(new) == made, f"{new} is not {share_file} with {renewal_file} added")
        expect(self.content() == {**before, new: made}, f"renew to {new} changes other files")
        return new

    def renew_all(self, names, prefix):
        """Renews a set by the program; the names of the new share files by number. The renewal files are removed again."""
        renewals = self.renewal(names[1], len(names), f"for-{prefix}")
        new = {number: self.renew(f"{prefix}.{number}", name, renewals[number]) for number, name in names.items()}
        self.remove(renewals.values())
        return new

    def remove(self, names):
        for name in names:
            (self.path / name).unlink()

    def refuses(self, status, said, *words, **options):
        """The run has this exit status and message, prints nothing, and changes no file."""
        before, entries = self.content(), sorted(os.listdir(self.path))
        ran = self.run(*words, **options)
        heard = ran.stderr.decode()
        lines = USAGE.count("\n") if status == 2 else 1
        expect(ran.returncode == status and said in heard and heard.count("\n") == lines and not ran.stdout,
               f"{words}: status {ran.returncode}, printed {ran.stdout!r}, said {heard!r}; not {status} and {said!r}")
        expect(before == self.content() and entries == sorted(os.listdir(self.path)), f"{words}: refused, and files are new or changed")


def limited(kind, most):
    """Options under which the program has a limit. It is told by an error, as with a full disk, and not by a signal."""
    return {"preexec_fn": lambda: resource.setrlimit(kind, (most, most)), "restore_signals": False}


# What is tested.


def read_shares(folder, names, k, n, renewed=b""):
    """The shares by number, and the name of the set; checks the layout and the mode of the files. Renewal files begin with the name of the set that
    they renew."""
    files = {number: folder.read(name) for number, name in names.items()}
    set_name = files[1][len(renewed):][:NAME]
    for number, file in files.items():
        head = renewed + set_name + bytes([k, n, number])
        expect(file.startswith(head) and len(file) == len(head) + KEY, f"file {number} of {k} {n}, {len(file)} bytes, begins {file[:len(head)]}")
    return {number: file[-KEY:] for number, file in files.items()}, set_name


def check_shares(shares, key, k):
    """All shares lie on polynomials below degree k whose value at 0 is the key, and whose other coefficients are drawn: a program that
    draws too few leaves zeros. Of all values in all splits and renewals, one comes more than 24 times in fewer than one run of 10^15."""
    base = dict(list(shares.items())[:k])
    for number, share in shares.items():
        expect(value(base, number) == share, f"share {number} of {len(shares)} does not fit the first {k}")
    constant, *drawn = coefficients(shares, k)
    expect(constant == key, f"the first {k} of {len(shares)} shares do not give the key here")
    most = max(collections.Counter(b"".join(drawn)).values())
    expect(most <= 24, f"the coefficients of {k} {len(shares)} have one value {most} times")


def check_pair(folder, k, n, rng):
    """A split by the program, merged here and by the program; its renewal; then a split that is made here, merged by the program."""
    key = rng.randbytes(KEY)
    names = folder.split(key, k, n, "share")
    shares, set_name = read_shares(folder, names, k, n)
    check_shares(shares, key, k)
    folder.merge(key, rng.sample(list(names.values()), k))
    check_renewal(folder, k, names, shares, set_name, key, rng)
    folder.remove(names.values())
    made = {number: folder.write_share(f"made.{number}", k, n, number, share) for number, share in shares_of(key, k, n, rng).items()}
    folder.merge(key, rng.sample(list(made.values()), rng.randint(k, n)))
    if n in (k, 16):
        folder.refuses(1, f"{k} share files are needed, not {k - 1}", "merge", "merged", *rng.sample(list(made.values()), k - 1))
    folder.remove(made.values())


def check_all_orders(folder, k, n, rng):
    key = rng.randbytes(KEY)
    names = folder.split(key, k, n, "share")
    for choice in itertools.permutations(names.values(), k):
        folder.merge(key, choice)
    folder.remove(names.values())


def check_renewal(folder, k, names, shares, set_name, key, rng):
    """Renewal files have shares of the zero key. Of k shares that are chosen, one is renewed by the program and the others here."""
    n = len(names)
    renewals = folder.renewal(rng.choice(list(names.values())), n, "renewal")
    added, new_name = read_shares(folder, renewals, k, n, set_name)
    check_shares(added, ZERO, k)
    expect(new_name != set_name, f"the renewal of {k} {n} keeps the name of the set")
    own, *others = rng.sample(list(names), k)
    new = [folder.renew(f"new.{own}", names[own], renewals[own])]
    for number in others:
        new.append(folder.write_share(f"new.{number}", k, n, number, add(shares[number], added[number]), new_name))
    folder.merge(key, rng.sample(new, k))
    folder.remove([*renewals.values(), *new])


def check_renewed_twice(folder, k, n, choices, rng):
    """A split that is renewed twice by the program, and merged by it from all choices of k shares."""
    key = rng.randbytes(KEY)
    first = folder.split(key, k, n, "first")
    second = folder.renew_all(first, "second")
    third = folder.renew_all(second, "third")
    check_shares(read_shares(folder, third, k, n)[0], key, k)
    for choice in choices(third.values(), k):
        folder.merge(key, choice)
    folder.remove([*first.values(), *second.values(), *third.values()])


def check_open_files(folder, rng):
    """Each file is closed before the next is opened: three standard ones and few more are allowed."""
    key, limit = rng.randbytes(KEY), limited(resource.RLIMIT_NOFILE, 6)
    names = folder.split(key, 16, 16, "share", **limit)
    folder.merge(key, names.values(), **limit)
    renewals = folder.renewal("share.1", 16, "renewal", **limit)
    folder.renew("new", "share.16", "renewal.16", **limit)
    folder.remove([*names.values(), *renewals.values(), "new"])


def check_two_splits(folder, rng):
    """Two splits of one key have nothing in common, and are not mixed."""
    key = rng.randbytes(KEY)
    first, second = folder.split(key, 2, 3, "first"), folder.split(key, 2, 3, "second")
    (shares, name), (others, other_name) = read_shares(folder, first, 2, 3), read_shares(folder, second, 2, 3)
    expect(name != other_name and not set(shares.values()) & set(others.values()), "two splits of one key are alike")
    folder.refuses(1, "second.2: not of the same split", "merge", "merged", "first.1", "second.2")
    folder.refuses(1, "first.3: not of the same split", "merge", "merged", "second.1", "second.2", "first.3")  # behind the first k
    for case, (k, n) in {"k": (3, 3), "n": (2, 4)}.items():
        folder.write_share(f"other-{case}", k, n, 2, others[2], name)
        folder.refuses(1, f"other-{case}: not of the same split", "merge", "merged", "first.1", f"other-{case}")


def check_old_and_new(folder, rng):
    """Old and new shares are not mixed by mistake. Under one name they give another key, the one that they give here."""
    key = rng.randbytes(KEY)
    old = folder.split(key, 3, 5, "old")
    new = folder.renew_all(old, "renewed")
    folder.refuses(1, "renewed.2: not of the same split", "merge", "merged", "old.1", "renewed.2", "old.3")
    folder.refuses(1, "old.5: not of the same split", "merge", "merged", "renewed.1", "renewed.2", "renewed.3", "old.5")  # behind the first k
    (shares, name), (others, _) = read_shares(folder, old, 3, 5), read_shares(folder, new, 3, 5)
    forged = {number: folder.write_share(f"forged.{number}", 3, 5, number, share, name) for number, share in others.items()}
    for choice in itertools.combinations(old, 3):
        changed = rng.sample(choice, rng.randint(1, 2))
        mixed = {number: (others if number in changed else shares)[number] for number in choice}
        expect(value(mixed, 0) != key, f"old shares and the new ones {changed} give the same key here")
        folder.merge(value(mixed, 0), [(forged if number in changed else old)[number] for number in choice])


def check_missed_renewal(folder, rng):
    """A trustee who missed a renewal applies it and the next in their order, each once. Old shares give the key as before."""
    key, order = rng.randbytes(KEY), "not for the set of this share file; renewals are applied in their order"
    folder.split(key, 2, 3, "year-1")
    folder.renewal("year-1.1", 3, "for-2")
    folder.renew("year-2.1", "year-1.1", "for-2.1")
    folder.renewal("year-2.1", 3, "for-3")
    folder.renew("year-3.1", "year-2.1", "for-3.1")
    folder.refuses(1, f"for-3.3: {order}", "renew", "new", "year-1.3", "for-3.3")
    folder.renew("year-2.3", "year-1.3", "for-2.3")
    folder.refuses(1, "for-2.3: applied to this share file before", "renew", "new", "year-2.3", "for-2.3")
    folder.renew("year-3.3", "year-2.3", "for-3.3")
    folder.refuses(1, "for-3.3: applied to this share file before", "renew", "new", "year-3.3", "for-3.3")
    folder.refuses(1, f"for-2.3: {order}", "renew", "new", "year-3.3", "for-2.3")
    for year in [3, 2, 1]:
        folder.merge(key, [f"year-{year}.3", f"year-{year}.1"])


def check_two_renewals(folder, rng):
    """Two renewals of one set have nothing in common, and what they make is not mixed. Behind its first name a renewal file is a share file of the
    zero key; k-1 of them give the others."""
    names = folder.split(rng.randbytes(KEY), 3, 5, "set")
    name = read_shares(folder, names, 3, 5)[1]
    left, right = folder.renewal("set.4", 5, "left"), folder.renewal("set.4", 5, "right")
    (added, new_name), (others, other_name) = read_shares(folder, left, 3, 5, name), read_shares(folder, right, 3, 5, name)
    expect(new_name != other_name and not set(added.values()) & set(others.values()), "two renewals of one set are alike")
    new = [folder.renew(f"set-{side}.{number}", names[number], f"{side}.{number}") for number, side in [(1, "left"), (2, "right"), (5, "left")]]
    folder.refuses(1, "set-right.2: not of the same split", "merge", "merged", *new)
    folder.merge(ZERO, [folder.write(f"zero.{number}", folder.read(left[number])[NAME:]) for number in [5, 2, 3]])
    expect(value({0: ZERO, 2: added[2], 5: added[5]}, 1) == added[1], "two renewal files for k = 3 do not give the others here")


def check_changed_share(folder, rng):
    """No integrity is promised: a changed share gives another key, and no message. The file's head is as it was."""
    key = rng.randbytes(KEY)
    names = folder.split(key, 3, 4, "changed")
    shares, set_name = read_shares(folder, names, 3, 4)
    shares.pop(4)
    shares[2] = bytes([shares[2][0] ^ 1]) + shares[2][1:]
    folder.write_share(names[2], 3, 4, 2, shares[2], set_name)
    expect(value(shares, 0) != key, "a changed share gives the same key here")
    folder.merge(value(shares, 0), [names[3], names[2], names[1]])


def check_wrong_use(folder):
    for words in [[], ["split"], ["merge"], ["split", 2, 3, "key"], ["split", 2, 3, "key", "new", "more"], ["merge", "merged"],
                  ["join", "merged", "good.1", "good.2"], ["", 2, 3, "key", "new"], ["merge", "merged", *["good.1"] * 17],
                  ["renewal"], ["renewal", "good.1"], ["renewal", "good.1", "new", "more"], ["renew"], ["renew", "new", "good.1"],
                  ["renew", "new", "good.1", "for-good.1", "good.2"]]:
        folder.refuses(2, USAGE, *words)
    for text in NO_NUMBERS:
        folder.refuses(2, USAGE, "split", text, 3, "key", "new")
        folder.refuses(2, USAGE, "split", 2, text, "key", "new")


def check_refused_files(folder, kind, words):
    """The words are given with a file in place of one of this kind."""
    own, other = ("good.1", "for-good.1") if kind == "share" else ("for-good.1", "good.1")
    good = folder.read(own)
    bad = [folder.write(name, content) for name, content in {"none": b"", "cut": good[:-1], "long": good + b"\0"}.items()]
    for name in [*bad, other]:
        folder.refuses(1, f"{name}: no {kind} file, which has {len(good)} bytes", *words(name))
    folder.refuses(1, "nowhere: No such file", *words("nowhere"))
    folder.refuses(1, ".: Is a directory", *words("."))


def check_refused_prefixes(folder, size, *words):
    """Words that write 16 files of this size, without their last, the prefix. The first, one in between or the last can't be written."""
    folder.refuses(1, "nowhere/new.1: No such file", *words, "nowhere/new")
    folder.refuses(1, "PREFIX: too long for a path", *words, "x" * 5000)
    folder.refuses(1, "PREFIX: too long for a path", *words, "./" * 2045 + "new")  # from .10 on
    folder.refuses(1, "x.10: File name too long", *words, "x" * 253)
    folder.refuses(1, "new.1: File too large", *words, "new", **limited(resource.RLIMIT_FSIZE, size - 1))
    for number in [1, 3, 16]:
        folder.write(f"taken-{number}.{number}", b"kept")
        folder.refuses(1, f"taken-{number}.{number}: File exists", *words, f"taken-{number}")
    with open("/dev/full", "wb") as full:
        folder.refuses(1, "standard output: No space", *words, "new", stdout=full)


def check_refused_splits(folder):
    for k, n in OUT_OF_RANGE:
        folder.refuses(1, "K and N: not from 2 to 16, or K is above N", "split", k, n, "key", "new")
    for size in [0, 31, 33, 64]:
        folder.refuses(1, "32 bytes", "split", 2, 3, folder.write(f"key-{size}", bytes(size)), "new")
    folder.refuses(1, "nowhere: No such file", "split", 2, 3, "nowhere", "new")
    folder.refuses(1, ".: Is a directory", "split", 2, 3, ".", "new")
    folder.refuses(1, "nowhere/new.1: No such file", "split", 2, 3, "key", "nowhere/new")
    folder.refuses(1, "PREFIX: too long for a path", "split", 2, 3, "key", "x" * 5000)
    folder.refuses(1, "new.1: File too large", "split", 2, 3, "key", "new", **limited(resource.RLIMIT_FSIZE, SHARE_FILE - 1))
    with open("/dev/full", "wb") as full:
        folder.refuses(1, "standard output: No space", "split", 2, 3, "key", "new", stdout=full)
    check_refused_prefixes(folder, SHARE_FILE, "split", 2, 16, "key")


def check_refused_merges(folder):
    good = folder.read("good.1")
    check_refused_files(folder, "share", lambda name: ("merge", "merged", name, "good.2"))
    check_refused_files(folder, "share", lambda name: ("merge", "merged", "good.1", "good.2", name))
    folder.refuses(1, "nowhere: No such file", "merge", "merged", "good.1", "nowhere")
    folder.refuses(1, ".: Is a directory", "merge", "merged", ".", "good.1")
    folder.refuses(1, "a share comes twice", "merge", "merged", "good.1", "good.1")
    folder.refuses(1, "a share comes twice", "merge", "merged", "good.2", "good.2", "good.1")
    folder.refuses(1, "2 share files are needed, not 1", "merge", "merged", "good.3")
    folder.refuses(1, "good.3: File exists", "merge", "good.3", "good.1", "good.2")
    folder.refuses(1, "nowhere/merged: No such file", "merge", "nowhere/merged", "good.1", "good.2")
    folder.refuses(1, "merged: File too large", "merge", "merged", "good.1", "good.2", **limited(resource.RLIMIT_FSIZE, KEY - 1))
    for number in [0, 4, 255]:
        folder.write("number", good[:NAME + 2] + bytes([number]) + good[HEAD:])
        folder.refuses(1, "its number is not from 1 to N", "merge", "merged", "number", "good.2")
    for k, n in WRONG_IN_FILE:
        names = [folder.write_share(f"range.{number}", k, n, number, ZERO) for number in range(1, 17)]
        folder.refuses(1, "range.1: K or N in it is not from 2 to 16, or K is above N", "merge", "merged", *names)


def check_refused_renewals(folder):
    check_refused_files(folder, "share", lambda name: ("renewal", name, "new"))
    for k, n in WRONG_IN_FILE:
        folder.write_share("range", k, n, 1, ZERO)
        folder.refuses(1, "range: K or N in it is not from 2 to 16, or K is above N", "renewal", "range", "new")
    check_refused_prefixes(folder, RENEWAL_FILE, "renewal", folder.write_share("of-16", 2, 16, 1, ZERO))


def check_refused_renews(folder):
    check_refused_files(folder, "share", lambda name: ("renew", "new", name, "for-good.1"))
    check_refused_files(folder, "renewal", lambda name: ("renew", "new", "good.1", name))
    for taken in ["good.1", "for-good.1", "key"]:
        folder.refuses(1, f"{taken}: File exists", "renew", taken, "good.1", "for-good.1")
    folder.refuses(1, "nowhere/new: No such file", "renew", "nowhere/new", "good.1", "for-good.1")
    folder.refuses(1, "new: File too large", "renew", "new", "good.1", "for-good.1", **limited(resource.RLIMIT_FSIZE, SHARE_FILE - 1))


def check_other_renewals(folder):
    """Renewal files for another set, k, n or number than those of the share file."""
    good = folder.read("good.1")
    names = good[:NAME] + b"new-name"
    folder.renew("same", "good.1", folder.write_share("for-same", 2, 3, 1, ZERO, names))
    for name, said, k, n, number in [("k", "K and N", 3, 3, 1), ("n", "K and N", 2, 4, 1), ("number", "number", 2, 3, 2)]:
        folder.write_share(f"other-{name}", k, n, number, ZERO, names)
        folder.refuses(1, f"other-{name}: not for the {said} of this share file", "renew", "new", "good.1", f"other-{name}")
    folder.write_share("other-set", 2, 3, 1, ZERO, bytes([names[0] ^ 1]) + names[1:])
    folder.refuses(1, "other-set: not for the set of this share file", "renew", "new", "good.1", "other-set")
    for number in [0, 4, 255]:
        folder.write("wrong", good[:NAME + 2] + bytes([number]) + good[HEAD:])
        folder.refuses(1, "for-same: not for the number of this share file", "renew", "new", "wrong", "for-same")


def check_sets(folder, rng):
    for k, n in PAIRS:
        check_pair(folder, k, n, rng)
    for k, n in SMALL:
        check_all_orders(folder, k, n, rng)
        check_renewed_twice(folder, k, n, itertools.permutations, rng)
    for k, n in MIDDLE:
        check_renewed_twice(folder, k, n, itertools.combinations, rng)
    check_open_files(folder, rng)
    check_two_splits(folder, rng)
    check_changed_share(folder, rng)
    check_old_and_new(folder, rng)
    check_missed_renewal(folder, rng)
    check_two_renewals(folder, rng)


def check_bad_input(folder, rng):
    folder.split(rng.randbytes(KEY), 2, 3, "good")
    folder.renewal("good.3", 3, "for-good")
    check_wrong_use(folder)
    check_refused_splits(folder)
    check_refused_merges(folder)
    check_refused_renewals(folder)
    check_refused_renews(folder)
    check_other_renewals(folder)


def main(program):
    rng = random.Random(1979)
    expect((product(0x57, 0x83), INVERSES[0x53]) == (0xC1, 0xCA), "this file's field is not that of FIPS 197")
    for check in [check_sets, check_bad_input]:
        with tempfile.TemporaryDirectory() as path:
            check(Folder(program, path), rng)
    print(f"{len(PAIRS)} pairs of k and n, split, renewed and merged by the program and by this file's field; wrong use and bad files refused")


if __name__ == "__main__":
    main(sys.argv[1])
