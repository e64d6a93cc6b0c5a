#!/usr/bin/env python3
"""Measures the program and writes its figures into docs/SPEED.md and docs/pictures:

    speed.py [--keep FOLDER] [--only PART] [--busy] [--beside WORDS] [--checker CHECKS FOLLOWER PLAIN FOLDER] [PROGRAM]

It measures the proved program, crates/certify_cli/out/certify_cli, which `rt run` in crates/certify_cli leaves, and refuses to do so if a
source is newer. If PROGRAM is given, it measures that, and the document states that it was not proved. The document names the commit of this checkout,
the processors that the program may use, and what else ran, if WORDS say so.

Figures are of an otherwise idle machine: before each part, a load average above 1.5 ends the script, except with --busy. Then the document
says that the machine was busy. MB are 10^6 bytes, and MiB 2^20 bytes; peak memory is in MiB.

    formulas   bench/solver/run.sh and pictures.py: `run`, `confirm` and MiniSat over forty formulas, stopped after 20 seconds
    large      bench/solver/large.py: texts of a million commands
    scale      bench/scale.py: how time grows with the text
    memory     bench/memory/run.sh: the texts that need the most memory for each byte
    checker    bench/checker/beside.py: `confirm`, `hints` and `check` compared with plain checkers, if --checker gives what that needs

Each part replaces the lines of docs/SPEED.md between `<!-- PART -->` and `<!-- end -->`. The output of each part is kept in FOLDER/PART, and
a part whose output exists is not measured again. All parts take some 20 minutes. They need python3, GNU time and Debian's minisat.
"""
import importlib.util
import os
import re
import subprocess
import sys
import tempfile

BENCH = os.path.dirname(os.path.abspath(__file__))
TOP = os.path.dirname(BENCH)
PROVED = os.path.join(TOP, "crates/certify_cli/out/certify_cli")
DOCUMENT = os.path.join(TOP, "docs/SPEED.md")
PICTURES = os.path.join(TOP, "docs/pictures")
LIMIT = "20"
MOST_LOAD = 1.5  # each part runs one program at a time


def output(command, **more):
    return subprocess.run(command, stdout=subprocess.PIPE, check=True, encoding="utf-8", **more).stdout


def script(*path):
    return os.path.join(BENCH, *path)


def load():
    """Returns the load average of the last minute."""
    return os.getloadavg()[0]


def measure(part, program, tools):
    """Returns the output of the part's script."""
    if part == "checker":
        if tools is None:
            sys.exit("the part checker needs --checker")
        return output([sys.executable, script("checker", "beside.py"), program, *tools])
    if part == "formulas":
        return output([script("solver", "run.sh"), program], env={**os.environ, "LIMIT": LIMIT})
    if part == "large":
        return output([sys.executable, script("solver", "large.py"), program])
    if part == "scale":
        return output([sys.executable, script("scale.py"), program])
    return output([script("memory", "run.sh"), program])


def show(part, path):
    """Returns the lines of the document that the output in the file `path` makes."""
    if part == "formulas":
        return output([sys.executable, script("solver", "pictures.py"), path, PICTURES, LIMIT])
    with open(path, encoding="utf-8") as file:
        text = file.read()
    return {"large": str, "scale": scale, "memory": memory, "checker": checker}[part](text)


def size(count):
    return f"{count / 1e6:.1f} MB" if count >= 1e6 else f"{count / 1e3:.0f} kB"


def scale(text):
    """Makes a table of the lines of scale.py; what a text is, its function there says."""
    found = importlib.util.spec_from_file_location("scale", script("scale.py"))
    texts = importlib.util.module_from_spec(found)
    found.loader.exec_module(texts)
    rows = ["| Text | Call | Bytes read | Seconds | Exponent |", "|---|---|---|---|---|"]
    described = set()
    for line in text.splitlines():
        name, call, count, seconds, exponent, above = re.match(r"(\w+) +(\w+) +(\d+) bytes .* ([\d.]+) s  exponent +(\S+)( above)?", line).groups()
        what = f"`{name}`" if name in described else f"{getattr(texts, name).__doc__.rstrip('.')} (`{name}`)"
        described.add(name)
        mark = "**" if above else ""
        rows.append(f"| {what} | `{call}` | {size(int(count))} | {float(seconds):.2f} | {mark}{exponent}{mark} |")
    if any(row.endswith("| - |") for row in rows):
        rows += ["", "An exponent of `-` means that the smallest of the three texts takes less than 0.01 s, too little for a fit."]
    return "\n".join(rows) + "\n"


def memory(text):
    """Makes a table of the text of each call that costs most for each byte."""
    most = {}
    for line in text.splitlines():
        found = re.match(r"(hints|check|confirm) (\S+) +(\d+) bytes +(\d+) KB +([\d.]+) a byte", line)
        if found:
            call, name, count, peak, each = found.groups()
            most[call] = max(most.get(call, (0.0,)), (float(each), name, int(count), int(peak)))
    rows = ["| Call | Text | Bytes read | Peak memory | Bytes of memory per byte, beyond 20 MB |", "|---|---|---|---|---|"]
    for call, (each, name, count, peak) in most.items():
        rows.append(f"| `{call}` | `{name}` | {size(count)} | {peak / 1024:.0f} MiB | {each:.1f} |")
    return "\n".join(rows) + "\n"


CALLS = ["confirm", "hints", "check", "check_proof", "follower", "plain"]
CALLED = {"follower": "id checker", "plain": "plain checker"}


def checker(text):
    """Makes two tables of the lines of beside.py: means of ratios, and seconds and memory of each proof."""
    called = lambda call: CALLED.get(call, f"`{call}`")
    means, proofs = {}, []
    for line in text.splitlines():
        ratio = re.match(r"(\w+) beside (\w+), (seconds|memory): mean ([\d.]+) \((.*)\)", line)
        if ratio:
            call, other, what, mean, each = ratio.groups()
            values = dict(zip(each.split()[::2], map(float, each.split()[1::2])))
            most = max(values, key=values.get)
            means.setdefault((call, other), {})[what] = f"{mean}, {values[most]:.2f} ({most})"
        else:
            name, rest = line.split(": ", 1)
            found = dict((call, f"{float(s):.3f} s, {float(m):.0f} MiB") for call, s, m in re.findall(r"(\w+) ([\d.]+) s ([\d.]+) MiB", rest))
            proofs.append(f"| {name} | " + " | ".join(found[call] for call in CALLS) + " |")
    rows = ["| Call | Compared with | Time ratio: mean, highest | Memory ratio: mean, highest |", "|---|---|---|---|"]
    rows += [f"| `{call}` | {called(other)} | {each['seconds']} | {each['memory']} |" for (call, other), each in means.items()]
    rows += ["", "| Proof | " + " | ".join(map(called, CALLS)) + " |", "|---|" + "---|" * len(CALLS), *proofs]
    return "\n".join(rows) + "\n"


def machine(program, busy, beside):
    """Says what was measured, and where."""
    model = re.search(r"model name\s*: (.*)", output(["cat", "/proc/cpuinfo"]))
    what = "the proved program" if program == PROVED else "a program that was compiled without proof"
    commit = output(["git", "-C", TOP, "log", "-1", "--format=%h", "--", "crates"]).strip()
    if output(["git", "-C", TOP, "status", "--porcelain", "--", "crates"]):
        commit += " with changes"
    where = f"{len(os.sched_getaffinity(0))} of {os.cpu_count()} processors ({model[1].strip() if model else 'unknown'})"
    idle = "busy" if busy else "otherwise idle"
    return f"Measured: {what} at commit {commit}, on {where}; the machine was {idle}{f', {beside}' if beside else ''}.\n"


def replace(part, lines):
    with open(DOCUMENT, encoding="utf-8") as file:
        text = file.read()
    found = re.search(rf"(<!-- {part} -->\n).*?(<!-- end -->)", text, re.DOTALL)
    if not found:
        sys.exit(f"{DOCUMENT} has no part {part}")
    with open(DOCUMENT, "w", encoding="utf-8") as file:
        file.write(text[: found.end(1)] + lines + text[found.start(2) :])


def newer(program):
    """Returns a source that is newer than the program."""
    for crate in ["certify_cli", "certify", "sat_hints", "sat_solver", "sat_checker", "sat_parts", "sat_store", "sat_base"]:
        for folder, _, files in os.walk(os.path.join(TOP, "crates", crate, "src")):
            for name in files:
                if os.path.getmtime(os.path.join(folder, name)) > os.path.getmtime(program):
                    return os.path.join(folder, name)
    return None


def main():
    parts, keep, beside, tools, words = ["formulas", "large", "scale", "memory"], None, None, None, sys.argv[1:]
    may_be_busy = busy = False
    while words and words[0].startswith("--"):
        if words[0] == "--keep":
            keep, words = os.path.abspath(words[1]), words[2:]
        elif words[0] == "--only":
            parts, words = [words[1]], words[2:]
        elif words[0] == "--busy":
            may_be_busy, words = True, words[1:]
        elif words[0] == "--beside":
            beside, words = words[1], words[2:]
        elif words[0] == "--checker":
            tools, words = words[1:5], words[5:]
            parts.append("checker")
        else:
            sys.exit(__doc__)
    program = os.path.abspath(words[0]) if words else PROVED
    if not os.path.exists(program):
        sys.exit(f"{program} isn't there; `rt run` in crates/certify_cli makes it")
    if not words and newer(program):
        sys.exit(f"{newer(program)} is newer than {program}; `rt run` in crates/certify_cli makes it anew")
    with tempfile.TemporaryDirectory() as folder:
        folder = keep or folder
        os.makedirs(folder, exist_ok=True)
        for part in parts:
            path = os.path.join(folder, part)
            if not os.path.exists(path):
                if load() > MOST_LOAD:
                    if not may_be_busy:
                        sys.exit(f"the load average is {load():.1f}, above {MOST_LOAD}: wait until nothing else runs, or give --busy")
                    busy = True
                text = measure(part, program, tools)
                with open(path, "w", encoding="utf-8") as file:
                    file.write(text)
            replace(part, show(part, path))
            print(f"{part}: written", flush=True)
    replace("machine", machine(program, busy, beside))


if __name__ == "__main__":
    main()
