#!/usr/bin/env python3
"""Compares `confirm`, hint texts and `check_proof` with unverified checkers in C++:

    beside.py [-i] PROGRAM CHECKS FOLLOWER PLAIN FOLDER [NAME..]

For each FOLDER/NAME.certificate, or for those that are named, it makes these calls in turn, nine times:

    confirm      PROGRAM confirm NAME.cnf answers NAME.certificate
    hints        PROGRAM hints NAME.certificate, which writes its hint text
    check        PROGRAM check of that text
    check_proof  CHECKS < NAME.certificate, a program over checks.rt.txt, as run.sh builds it
    follower     FOLLOWER NAME.cnf NAME.trace, which checks the same derivation by ids
    plain        PLAIN < NAME.certificate, an unverified checker of certificates

It prints the least user and system seconds and the peak memory of each, and then ratios with their geometric means. With -i it counts
millions of instructions by valgrind, once each, instead of seconds. Not part of the gate. Needs GNU time.
"""
import math
import os
import re
import resource
import shutil
import subprocess
import sys
import tempfile

BESIDE = [
    # the calls whose costs are divided, first by second
    ("check", "follower"),
    ("hints", "check_proof"),
    ("hints", "plain"),
    ("confirm", "plain"),
    ("confirm", "follower"),
    ("confirm", "check_proof"),
    ("check_proof", "plain"),
    ("check_proof", "follower"),
]


def called(command, stdin):
    """Returns what a call writes to standard error."""
    with open(stdin or os.devnull, "rb") as text:
        answer = subprocess.run(command, stdin=text, stdout=subprocess.DEVNULL, stderr=subprocess.PIPE, check=False)
    printed = answer.stderr.decode(errors="replace")
    if answer.returncode != 0:
        sys.exit(f"{' '.join(command)}: status {answer.returncode}, {printed}")
    return printed


def seconds(command, stdin):
    """Returns the processor seconds of a call."""
    before = resource.getrusage(resource.RUSAGE_CHILDREN)
    called(command, stdin)
    after = resource.getrusage(resource.RUSAGE_CHILDREN)
    return after.ru_utime + after.ru_stime - before.ru_utime - before.ru_stime


def instructions(command, stdin):
    """Returns the millions of instructions of one run."""
    printed = called(["valgrind", "--tool=callgrind", "--callgrind-out-file=/dev/null", *command], stdin)
    return int(re.search(r"Collected : (\d+)", printed)[1]) / 1e6


def mebibytes(command, stdin):
    """Returns the peak memory in MiB."""
    printed = called([shutil.which("time"), "-f", "%M", *command], stdin)
    return int(printed.split()[-1]) / 1024


def calls(tools, folder, name, out):
    """Returns the command of each call, and what it reads from standard input."""
    program, checks, follower, plain = tools
    formula, certificate, trace = (os.path.join(folder, name + end) for end in (".cnf", ".certificate", ".trace"))
    return {
        "confirm": ([program, "confirm", formula, os.path.join(folder, "answers"), certificate], None),
        "hints": ([program, "hints", certificate, out], None),
        "check": ([program, "check", out], None),
        "check_proof": ([checks], certificate),
        "follower": ([follower, formula, trace], None),
        "plain": ([plain], certificate),
    }


def mean(ratios):
    return math.exp(sum(map(math.log, ratios)) / len(ratios))


def main():
    words = sys.argv[1:]
    counts = words[:1] == ["-i"]
    words = words[counts:]
    if len(words) < 5:
        sys.exit("usage: beside.py [-i] PROGRAM CHECKS FOLLOWER PLAIN FOLDER [NAME..]")
    tools, folder, names = [os.path.abspath(word) for word in words[:4]], words[4], words[5:]
    names = names or sorted(file[: -len(".certificate")] for file in os.listdir(folder) if file.endswith(".certificate"))
    costs, peaks = {}, {}
    with tempfile.TemporaryDirectory() as work:
        for name in names:
            these = calls(tools, folder, name, os.path.join(work, "hints"))
            costs[name] = {kind: math.inf for kind in these}
            for _ in range(1 if counts else 9):
                for kind, call in these.items():
                    costs[name][kind] = min(costs[name][kind], (instructions if counts else seconds)(*call))
            peaks[name] = {kind: mebibytes(*call) for kind, call in these.items()}
            printed = "; ".join(f"{kind} {costs[name][kind]:.3f} {'M' if counts else 's'} {peaks[name][kind]:.1f} MiB" for kind in these)
            print(f"{name}: {printed}", flush=True)
    for kind, other in BESIDE:
        for what, of in (("instructions" if counts else "seconds", costs), ("memory", peaks)):
            ratios = [of[name][kind] / of[name][other] for name in names]
            each = " ".join(f"{name} {ratio:.2f}" for name, ratio in zip(names, ratios))
            print(f"{kind} beside {other}, {what}: mean {mean(ratios):.2f} ({each})")


if __name__ == "__main__":
    main()
