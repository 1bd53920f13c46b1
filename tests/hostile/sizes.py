#!/usr/bin/env python3
"""Runs the built command on inputs that announce, or are, far too much, while little memory may be used.

sizes.py PROGRAM [MEGABYTES]

Each run takes less than ten seconds of a processor and ends, with status 0, or with status 1 or 4 and one line on standard error; all that is written
is compared. Where memory decides, both answers are right. The limit is on addresses (as `ulimit -v`), 64 MB where none is
given. An input that announces much and has little gets 4 MB more than a point needs: less than its points, rows or ids would
take.
"""
import os
import resource
import subprocess
import sys
import threading

sys.path.insert(0, os.path.join(os.path.dirname(os.path.abspath(__file__)), "../fuzz"))

from table import HEADER_LINE

SECONDS = 10
PATIENCE = 600  # seconds by the clock, after which a run is taken for one that does not end
MILLION = 1000000
ENDLESS = 100000  # pieces of a megabyte; none of the runs reads so many
TIMES = 10000
SPARE = 4096  # kB


def written(pipe, pieces):
    """Feeds a run until it ends or has no more."""
    try:
        for piece in pieces:
            pipe.write(piece)
        pipe.close()
    except (BrokenPipeError, OSError):
        pass


def taken():
    """Seconds that a processor worked for the runs that have ended."""
    used = resource.getrusage(resource.RUSAGE_CHILDREN)
    return used.ru_utime + used.ru_stime


def run(program, words, pieces, limit):
    """Status, output, standard error and seconds of a processor."""

    def limited():
        resource.setrlimit(resource.RLIMIT_AS, (limit, limit))
        resource.setrlimit(resource.RLIMIT_CORE, (0, 0))
        resource.setrlimit(resource.RLIMIT_CPU, (3 * SECONDS, 3 * SECONDS))

    pipes = {"stdin": subprocess.PIPE, "stdout": subprocess.PIPE, "stderr": subprocess.PIPE}
    start = taken()
    child = subprocess.Popen([program, *words], preexec_fn=limited, env={}, bufsize=0, **pipes)
    feeder = threading.Thread(target=written, args=(child.stdin, pieces), daemon=True)
    feeder.start()
    errors = []
    listener = threading.Thread(target=lambda: errors.append(child.stderr.read()), daemon=True)
    listener.start()
    stopper = threading.Timer(PATIENCE, child.kill)
    stopper.start()
    output = child.stdout.read()
    status = child.wait()
    seconds = taken() - start
    stopper.cancel()
    listener.join()
    return status, output, errors[0], seconds


def refusal(text, output=b""):
    """The answer to an input that is refused, behind this output."""
    return 1, output, f"polytwkb: {text}\n".encode()


def no_memory(output=b""):
    return 4, output, b"polytwkb: out of memory\n"


def done(output):
    return 0, output, b""


def nest(depth):
    return b"\x07\x00\x01" * depth + b"\x07\x10"


def nest_rows(depth):
    return b"".join(b"%d,collection,,0,\n" % level for level in range(depth + 1))


def nest_lines(depth, times):
    """What is shown of collections in one another, so many times."""
    length = 3 * depth + 2
    places = [(time * length, level) for time in range(times) for level in range(depth + 1)]
    lines = (
        f"{level} {start + 3 * level} collection 0 {'00' if level < depth else '10'} {length - 3 * level} 0\n"
        for start, level in places
    )
    return "".join(lines).encode()


def canonical_nest(depth):
    """Collections in one another: a member that is not the innermost has a size of one or two bytes."""
    blob = b"\x07\x12\x00"
    for _ in range(depth):
        rest = len(blob) + 1
        size = bytes([rest]) if rest < 128 else bytes([rest % 128 + 128, rest // 128])
        blob = b"\x07\x02" + size + b"\x01" + blob
    return blob


def announcing(command):
    """Name, input and the answer that is right, for `unpack` or `show` of 12 bytes that announce far more."""
    first = HEADER_LINE if command == "unpack" else b""
    cut = refusal("byte 12: truncated", first)
    yield "2^24 points announced", bytes.fromhex("02 00 80 80 80 08") + bytes(6), cut
    yield "2^20 - 1 rings announced", bytes.fromhex("03 00 FF FF 3F") + bytes(7), cut
    yield "2^20 - 1 members announced", bytes.fromhex("07 00 FF FF 3F 01 10 01 10 01 10 01"), cut
    yield "2^20 - 1 lines announced", bytes.fromhex("05 00 FF FF 3F") + bytes(7), cut
    yield "2^20 - 1 ids announced", bytes.fromhex("07 04 FF FF 3F") + bytes(7), cut


def streams(command):
    """Name, input in pieces, and the answers that are right, for `unpack` or `show`."""
    first = HEADER_LINE if command == "unpack" else b""
    yield "2^24 + 1 points", [bytes.fromhex("02 00 81 80 80 08")], [refusal("byte 2: too many points", first)]
    size = b"\x01\x02" + b"\x80" * 9 + b"\x01\x04\x02"
    yield "a size of 2^63", [size], [refusal("byte 14: size mismatch", first)]
    deep = [nest(32) * 100] * 100
    yield "32 collections, 16 allowed", deep, [refusal("byte 50: nested too deep", first)]
    points = [b"\x02\x00\x80\x80\x80\x08"] + [bytes(MILLION)] * ENDLESS
    text = (
        b"0,linestring,,0," + b"?" * 2**25 + b"\n"
        if command == "unpack"
        else b"0 0 linestring 0 00 33554438 16777216\n"
    )
    behind = refusal("byte 33554438: unknown type", first + text)
    yield "2^24 points, and 0 without end behind them", points, [behind, no_memory(first)]
    yield "0 without end", [bytes(MILLION)] * ENDLESS, [refusal("byte 0: unknown type", first)]


def tables():
    """The same for `pack`."""
    header, row = HEADER_LINE, HEADER_LINE + b"0,linestring,,0,"
    yield "32 collections, 16 allowed", [header + nest_rows(32)], [refusal("record 19: nested too deep")]
    long_row = [row] + [b"?" * MILLION] * 100 + [b"\n"]
    yield "a row of 100 MB", long_row, [refusal("record 2: polyline at 33554432: too many points"), no_memory()]
    quotes = [row + b'"'] + [b'"' * MILLION] * 100 + [b'"\n']
    yield "a field of 100 MB of quotes", quotes, [refusal("record 2: polyline at 0: bad character"), no_memory()]
    commas = [header] + [b"," * MILLION] * 100 + [b"\n"]
    yield "a row of 100 million fields", commas, [refusal("record 2: not five fields"), no_memory()]
    many = [header, b"0,multipoint,,0,\n"] + [b"1,point,,,??\n" * 1024] * 1024
    too_many = refusal("record 1048578: too many rows in one geometry")
    yield "2^20 + 1 rows in one geometry", many, [too_many, no_memory()]
    yield "a line without end", [header] + [b"a" * MILLION] * ENDLESS, [no_memory()]
    yield "a quote without end", [header + b'"'] + [b"\n" * MILLION] * ENDLESS, [no_memory()]
    yield "a first line without end", [b"a" * MILLION] * ENDLESS, [no_memory()]
    blank = [b"\n" * MILLION] * 100
    yield "100 MB of blank lines, and a header", blank + [header], [done(b"")]


def cases(limit, little):
    """Name, words, input in pieces, the answers that are right, and the limit in bytes."""
    for command in ("unpack", "show"):
        for name, announced, answer in announcing(command):
            yield name, [command], [announced], [answer], little
        for name, pieces, answers in streams(command):
            yield name, [command], pieces, answers, limit
        deep = HEADER_LINE + nest_rows(32) * TIMES if command == "unpack" else nest_lines(32, TIMES)
        yield "10,000 times 32 collections", [command, "--max-nest", "32"], [nest(32) * 100] * (TIMES // 100), [
            done(deep)
        ], limit
    for name, pieces, answers in tables():
        yield name, ["pack"], pieces, answers, limit
    rows, blobs = [HEADER_LINE] + [nest_rows(32)] * TIMES, canonical_nest(32) * TIMES
    yield "10,000 times 32 collections", ["pack", "--max-nest", "32"], rows, [done(blobs)], limit


def least_memory(program):
    """The least limit, in kB, with which a point is packed."""
    least, most = 0, 1 << 20
    while most - least > 64:
        limit = (least + most) // 2
        status = run(program, ["pack"], [HEADER_LINE + b"0,point,,0,AC\n"], limit * 1024)[0]
        least, most = (least, limit) if status == 0 else (limit, most)
    return most


def main():
    program = os.path.abspath(sys.argv[1])
    megabytes = int(sys.argv[2]) if len(sys.argv) > 2 else 64
    least = least_memory(program)
    print(f"sizes: a point is packed with {least} kB; the limit is {megabytes} MB", flush=True)
    wrong = 0
    for name, words, pieces, answers, limit in cases(megabytes << 20, (least + SPARE) << 10):
        status, output, errors, seconds = run(program, words, pieces, limit)
        is_right = (status, output, errors) in answers and seconds < SECONDS
        wrong += not is_right
        told = f"{words[0]}: {name}: status {status}, {seconds:.1f} s, {len(output)} bytes, {errors[:200]!r}"
        print(f"{'ok  ' if is_right else 'FAIL'}  {told}", flush=True)
    print(f"sizes: {wrong} wrong answers")
    return wrong > 0


if __name__ == "__main__":
    sys.exit(main())
