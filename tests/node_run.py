"""Runs the program node-run as only a pipe can show: input that is cut anywhere, comes in pieces or in turns, or is large; reads and writes that fail.

The requests and their lines are those of crates/node_run/stdin and stdout, which corpus/node-run.txt says in words; the first six are the
printed run.

usage: node_run.py PROGRAM
"""

import concurrent.futures
import os
import pathlib
import random
import select
import socket
import subprocess
import sys

PATIENCE = 10  # seconds for one run
MOST_AFTER = 200_000  # requests that are sent after those whose lines can't be written
MOST_FAILURES = 20  # after these the rest is left: each may have taken all that time
GREATEST_SIZE = 65537  # of a record: the length field, and 65,535 bytes after it
QUERIES = (20, 21)  # kinds of a request of one record
NOTICED = 26  # kind of a checkpoint that has the notices; the printed run's has kind 16, and none
CRATE = pathlib.Path(__file__).resolve().parent.parent / "crates/node_run"

# ---- requests: their records, the answer and the cycle after it


def split(data):
    """The records of an input in which none is cut."""
    records = []
    while data:
        size = 2 + int.from_bytes(data[:2], "little")
        records.append(data[:size])
        data = data[size:]
    return records


def kind_of(record):
    return int.from_bytes(record[2:4], "little")


def stored():
    """The requests of the stored input; the one that ends the run, a record out of its place being its second; what is not read after it."""
    records = split((CRATE / "stdin").read_bytes())
    answers = [line.split(b" ", 1)[1] for line in (CRATE / "stdout").read_bytes().splitlines()]
    requests = []
    for answer in answers[:-1]:
        count = 1 if kind_of(records[0]) in QUERIES else 2
        requests.append((b"".join(records[:count]), answer))
        del records[:count]
    return requests, (b"".join(records[:2]), answers[-1]), b"".join(records[2:])


REQUESTS, LAST, NOT_READ = stored()
PRINTED_RUN = REQUESTS[:6]
START = next(data for data, answer in REQUESTS if answer.startswith(b"started") and kind_of(split(data)[1]) == NOTICED)
GRANT, NO_ROWS = split(PRINTED_RUN[1][0])
OPEN = PRINTED_RUN[3]


def oversized(record, size):
    """A record with zeros after its body, up to that many bytes in all."""
    return (size - 2).to_bytes(2, "little") + record[2:].ljust(size - 2, b"\0")


def whole(requests):
    """An input and all that is to be printed for it."""
    lines = [b"%d %s\n" % (ordinal, answer) for ordinal, (_, answer) in enumerate(requests, 1)]
    return b"".join(data for data, _ in requests), b"".join(lines)


def broken(requests, rest):
    """The run ends in what follows these requests: in a cut record."""
    cycle = requests[-1][1].split()[-1] if requests else b"0"
    return whole([*requests, (rest, b"no 1 " + cycle)])


# ---- cases: what, input, output


def cuts():
    """The printed run and a start from a kind 26 checkpoint cut after every byte; the stored input cut at and beside the edges of every
    request and record."""
    yield "no input", b"", b""
    for n in range(1, len(START)):
        yield f"start from kind {NOTICED} cut after {n} bytes", *broken([], START[:n])
    for i, (data, _) in enumerate(PRINTED_RUN):
        for n in range(1, len(data)):
            yield f"printed run, request {i + 1} cut after {n} bytes", *broken(PRINTED_RUN[:i], data[:n])
    for i, (data, _) in enumerate(REQUESTS):
        yield f"the input ends before request {i + 1}", *whole(REQUESTS[:i])
        first = len(split(data)[0])
        for n in {1, first, first + 1, len(data) - 1} - {len(data), len(data) + 1}:
            yield f"request {i + 1} cut after {n} bytes", *broken(REQUESTS[:i], data[:n])
    data, lines = whole([*REQUESTS, LAST])
    yield "the stored input", data + NOT_READ, lines


def large():
    """Inputs that span many reads, with records at all distances from where a read ends."""
    yield "200,000 queries", *whole([*PRINTED_RUN, *[OPEN] * 200_000])
    greatest = oversized(GRANT, GREATEST_SIZE) + oversized(NO_ROWS, GREATEST_SIZE)
    yield "the greatest requests", *whole([*PRINTED_RUN, *[(greatest, b"no 1 2"), OPEN] * 100])
    some = random.Random(1)
    mixed = [(oversized(OPEN[0], some.randrange(14, 4000)), b"no 1 2") for _ in range(3000)]
    yield "queries of many sizes", *whole([*PRINTED_RUN, *mixed])
    yield "a cut after them", *broken([*PRINTED_RUN, *mixed], greatest[:-1])


# ---- runs


def run(program, data):
    """All that the program prints for this input."""
    ended = subprocess.run([program], input=data, capture_output=True, timeout=PATIENCE)
    if ended.returncode != 0 or ended.stderr:
        return b"exit status %d, standard error: %s" % (ended.returncode, ended.stderr[:200])
    return ended.stdout


def run_in_pieces(program, data, size):
    """The same, where each read gets one piece: a socket of this type keeps what it is sent apart, which a pipe does not."""
    ours, its = socket.socketpair(socket.AF_UNIX, socket.SOCK_SEQPACKET)
    ours.settimeout(PATIENCE)
    with ours, subprocess.Popen([program], stdin=its, stdout=subprocess.PIPE) as process:
        its.close()
        try:
            for at in range(0, len(data), size):
                ours.sendall(data[at : at + size])
            ours.shutdown(socket.SHUT_WR)
            return process.communicate(timeout=PATIENCE)[0]
        finally:
            process.kill()


def run_in_turns(program, requests):
    """The same, where a request is sent only after the line for the one before it was read."""
    got = b""
    with subprocess.Popen([program], stdin=subprocess.PIPE, stdout=subprocess.PIPE, bufsize=0) as process:
        try:
            for i, (data, _) in enumerate(requests, 1):
                process.stdin.write(data)
                while got.count(b"\n") < i and select.select([process.stdout], [], [], PATIENCE)[0]:
                    got += process.stdout.read(4096) or b"the output ended\n"
                if got.count(b"\n") != i:
                    return got + b"not one line for each request\n"
            return got + process.communicate(timeout=PATIENCE)[0]
        finally:
            process.kill()


def run_from_folder(program):
    """All that it prints where every read fails, as of a folder, which ends the input."""
    folder = os.open(CRATE, os.O_RDONLY)
    try:
        ended = subprocess.run([program], stdin=folder, capture_output=True, timeout=PATIENCE)
    finally:
        os.close(folder)
    return ended.stdout + ended.stderr + b"exit status %d\n" % ended.returncode


def run_to_full_disk(program, requests, more):
    """What it says where every write fails, which ends the run although the input goes on for as long as it is read."""
    with open("/dev/full", "wb") as full:
        with subprocess.Popen([program], stdin=subprocess.PIPE, stdout=full, stderr=subprocess.PIPE, bufsize=0) as process:
            try:
                process.stdin.write(b"".join(data for data, _ in requests))
                for _ in range(MOST_AFTER):
                    process.stdin.write(more)
                return b"the input is still read\n"
            except BrokenPipeError:
                return process.stderr.read() + b"exit status %d\n" % process.wait(PATIENCE)
            finally:
                process.kill()


def difference(got, wanted):
    """The first line that is not as wanted, or None."""
    if got == wanted:
        return None
    got, wanted = got.split(b"\n"), wanted.split(b"\n")
    i = next((i for i, (g, w) in enumerate(zip(got, wanted)) if g != w), min(len(got), len(wanted)))
    return f"line {i + 1} is {got[i : i + 1]}, wanted {wanted[i : i + 1]}"


def checks(program):
    """For each case what it is, and what to call for its fault."""
    for make in (cuts, large):
        for what, data, wanted in make():
            yield what, lambda data=data, wanted=wanted: difference(run(program, data), wanted)
    requests = [*REQUESTS, LAST]
    table, lines = whole(requests)
    for size in (1, 2, 3, 7, 13, 24, 1000, 1109, 1111, 4096):
        yield f"in pieces of {size} bytes", lambda size=size: difference(run_in_pieces(program, table, size), lines)
    yield "in turns", lambda: difference(run_in_turns(program, requests), lines)
    yield "a read that fails", lambda: difference(run_from_folder(program), b"exit status 0\n")
    yield "a write that fails", lambda: difference(run_to_full_disk(program, PRINTED_RUN, OPEN[0]), b"exit status 0\n")


def outcome(check):
    """What the case is, and its fault or None."""
    what, fault_of = check
    try:
        return what, fault_of()
    except (OSError, subprocess.TimeoutExpired) as error:
        return what, error


def main(words):
    if len(words) != 1 or not os.access(words[0], os.X_OK):
        print("usage: node_run.py PROGRAM", file=sys.stderr)
        return 2
    cases, failures = 0, 0
    with concurrent.futures.ThreadPoolExecutor(4) as pool:
        for what, fault in pool.map(outcome, checks(words[0])):
            cases += 1
            if fault is not None:
                failures += 1
                print(f"{what}: {fault}")
            if failures == MOST_FAILURES:
                pool.shutdown(cancel_futures=True)
                break
    print(f"node-run: {cases} cases, {failures} failures")
    return int(failures > 0)


if __name__ == "__main__":
    sys.exit(main(sys.argv[1:]))
