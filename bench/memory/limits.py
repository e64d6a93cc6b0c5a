#!/usr/bin/env python3
"""Checks that running out of memory takes at most twice as long as succeeding: limits.py PROGRAM [NAMES]

PROGRAM is a built `certify_cli`; the texts have NAMES names each, 100,000 if it isn't given. Each call reads each text under limits on its
address space: in steps of half a megabyte, from the first limit under which it starts to four megabytes above the first under which it succeeds.
A line has the call, the text, the processor seconds without a limit, the first limit that suffices, and the slowest run with its limit. The
status is 1 if a run takes more than twice as long as without a limit and 20 ms, is killed, or fails without running out of memory.
"""
import os
import random
import resource
import subprocess
import sys
import tempfile

from worst import END, clause, literals, number

STEP = 1 << 19
ERROR = 0.02  # seconds by which a measured time may be too high


def line(*numbers):
    return " ".join(map(str, numbers)) + " 0\n"


def scripts(n):
    """Yields names and scripts."""
    names = list(range(1, n + 1))
    shuffled = random.Random(1).sample(names, n)
    false = [-name for name in shuffled]
    yield "high", line(n) + "a 0\n"
    yield "clause", line(*false) + "a 0\n"
    yield "units", "".join(map(line, shuffled)) + "a 0\n"
    yield "core", line(*names) + "a " + line(*false)
    yield "asked", "a " + line(*shuffled) + "a " + line(*false)


def certificates(n):
    """Yields names and certificates whose literals are in no clause, with one exception."""
    names = random.Random(2).sample(range(2, n + 1), n - 1) + [1]
    yield "model", b"\x0a" + literals(names) + END
    yield "failed", clause([-1]) + b"\x0b" + literals(names) + b"\x0c" + literals(names) + number(0) + END
    yield "derived", clause([1]) + b"\x06\x01" + literals(names) + number(0) + END


def hint_texts(n):
    """Yields names and hint texts whose literals are in no clause, with one exception."""
    names = random.Random(3).sample(range(2, n + 1), n - 1)
    yield "failed", f"i 1 -1 0\nf {line(*names, 1).rstrip()} 1 0\n"
    yield "derived", f"i 1 1 0\nd 2 {line(*names, 1).rstrip()} 1 0\n"


def run(command, limit=None):
    """Returns the status, the processor seconds and standard error of a command under a limit on its address space."""
    def before():
        if limit is not None:
            resource.setrlimit(resource.RLIMIT_AS, (limit, limit))

    old = resource.getrusage(resource.RUSAGE_CHILDREN)
    ended = subprocess.run(command, stdout=subprocess.DEVNULL, stderr=subprocess.PIPE, preexec_fn=before, check=False)
    new = resource.getrusage(resource.RUSAGE_CHILDREN)
    return ended.returncode, new.ru_utime + new.ru_stime - old.ru_utime - old.ru_stime, ended.stderr.decode()


def least(command, limit, tries, above):
    """Returns the least time of some tries, of which only the first counts if it isn't above `above`."""
    status, seconds, text = run(command, limit)
    for _ in range(tries - 1):
        if seconds > above:
            seconds = min(seconds, run(command, limit)[1])
    return status, seconds, text


def sweep(name, command):
    """Prints the line of a call. Returns whether all its runs are within bounds."""
    status, best, text = least(command, None, 5, 0)
    if status != 0:
        print(f"{name:18} fails without a limit: {text.strip()}")
        return False
    most = 2 * best + ERROR
    within, first, slowest, limit, started = True, None, (0, 0), STEP, False
    while first is None or limit <= first + 8 * STEP:
        status, seconds, text = least(command, limit, 5, most)
        failed = status != 0 and "OutOfMemory" not in text
        if status == 0 and first is None:
            first = limit
        started = started or not failed
        if started:
            slowest = max(slowest, (seconds, limit))
            if failed or seconds > most:
                within = False
                print(f"{name:18} {limit / 2**20:.1f} MB: status {status}, {seconds:.2f} s, {text.strip()}")
        limit += STEP
    print(f"{name:18} {best:6.3f} s, from {first / 2**20:6.1f} MB; slowest {slowest[0]:6.3f} s at {slowest[1] / 2**20:6.1f} MB", flush=True)
    return within


def put(path, text):
    with open(path, "wb") as file:
        file.write(text if isinstance(text, bytes) else text.encode())
    return path


def main():
    if len(sys.argv) not in (2, 3):
        sys.exit("usage: limits.py PROGRAM [NAMES]")
    program = os.path.realpath(sys.argv[1])
    n = int(sys.argv[2]) if len(sys.argv) > 2 else 100_000
    within = True
    with tempfile.TemporaryDirectory() as work:
        out = f"{work}/out"
        for name, text in scripts(n):
            texts = [put(f"{work}/script", text), f"{work}/answers", f"{work}/certificate"]
            subprocess.run([program, "run", *texts], stderr=subprocess.DEVNULL, check=True)
            subprocess.run([program, "hints", texts[2], f"{work}/hints"], stderr=subprocess.DEVNULL, check=True)
            within &= sweep(f"run {name}", [program, "run", texts[0], out, f"{work}/out2"])
            within &= sweep(f"confirm {name}", [program, "confirm", *texts])
            within &= sweep(f"hints {name}", [program, "hints", texts[2], out])
            within &= sweep(f"check {name}", [program, "check", f"{work}/hints"])
        for name, text in certificates(n):
            within &= sweep(f"hints {name}", [program, "hints", put(f"{work}/certificate", text), out])
        for name, text in hint_texts(n):
            within &= sweep(f"check {name}", [program, "check", put(f"{work}/hints", text)])
    sys.exit(0 if within else 1)


main()
