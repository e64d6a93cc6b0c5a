#!/usr/bin/env python3
"""Solves a formula by cubes, on one machine or a cluster, and confirms the result from its files: cubes.py [--confirm] FORMULA FOLDER [PROGRAM]

    cubes.py [--engine processes|parallel|slurm] [--jobs N] [--steps N] [--batch N] FORMULA FOLDER [PROGRAM]    solves, or continues
    cubes.py --confirm [--jobs N] FORMULA FOLDER [PROGRAM]    answers nothing, and confirms the result that FOLDER has
    cubes.py try [PROGRAM]    tries all of this on small formulas, with every engine that this machine has, and on damaged files

A cube is a list of literals; the first one is empty. If a cube isn't answered in `--steps` rounds (50000), it is split: a further name is true
in one half and false in the other. So difficult cubes become longer. The name is the one that occurs most often in the
clauses that the cube and unit propagation leave, where an occurrence in a clause of k literals counts 2^-k. A model of one cube is a model of
the formula. If no cube has one, the negation of each core follows from the formula, and a last script, which has these clauses, is unsatisfiable.

A script has the clauses of the formula, and an ask for each of at most `--batch` cubes (8): what the solver learns from one serves the next.
The scripts of a wave are answered at the same time, up to `--jobs` of them (one for each processor), and confirmed where they were answered.
The cubes that are still open are split, and make the next wave. `--engine` selects what answers them:

    processes    processes of this machine
    parallel     GNU parallel; `--sshlogin` is passed on, and `--jobs` holds for each host
    slurm        Slurm, with an array job for each wave; `--sbatch '--partition=P --mem=8G'` has further options for `sbatch`

Hosts must see FOLDER and PROGRAM under the same paths. A run that was interrupted continues when it is called again, with any engine.
If a run with Slurm is killed by `kill -9`, its job isn't cancelled: continue with Slurm, or cancel the job in slurm.job and remove this file.

`--confirm` reads only FORMULA and FOLDER: it makes each script again, and `certify confirm` has to accept its answers. PROGRAM is by default
the proved program, crates/certify_cli/out/certify_cli. The status is 0 if there is a result. If there is none, the last line is `refused: REASON`,
and the status is 1. An interrupted run has the status 130, and a wrong call 2.

FOLDER has wave-N.cubes, with the number of a script and a cube on each line; K.script, K.answers, K.certificate; K.said, which `confirm` said;
K.log, the program's standard error; K.times, its processor times; and the same for `last`. slurm.log says which tasks Slurm has ended early.
Certificates take 130 to 210 bytes for each round of random formulas with 250 to 385 names.
"""
import argparse
import collections
import concurrent.futures
import fcntl
import importlib.util
import itertools
import os
import random
import re
import shlex
import shutil
import signal
import subprocess
import sys
import tempfile
import time

HERE = os.path.dirname(os.path.abspath(__file__))
PROVED = os.path.join(HERE, "../crates/certify_cli/out/certify_cli")
LARGEST_NAME = 1 << 28
MOST_STEPS = (1 << 64) - 1
BLANKS = " \t\r\n"
HEADER = re.compile(r"p[ \t\r]+cnf[ \t\r]+[0-9]+[ \t\r]+[0-9]+")
NUMBERS = re.compile(r"(?:(?:0+|-?0*[1-9][0-9]*)[ \t\r]+)*|[ ]")
MOST_SCRIPTS = 1000  # of a wave: Slurm's array jobs have at most 1001 tasks, unless it is configured otherwise
ANSWER = """#!/bin/sh
# answer FOLDER PROGRAM STEPS K: answers the script K and confirms the answers, unless this has been done
cd "$1" || exit 1
[ ! -e "$4.said" ] || exit 0
exec 2> "$4.log"
"$2" run "$4.script" "$4.answers" "$4.certificate" "$3" || exit 1
times > "$4.times"
"$2" confirm "$4.script" "$4.answers" "$4.certificate" > "$4.saying"
times >> "$4.times"
[ -s "$4.saying" ] && mv "$4.saying" "$4.said"
"""


class Refused(Exception):
    """The reason why there is no result."""


# Formulas and cubes.

def weight(clause):
    """Returns the weight of an occurrence: 2^-k in a clause of k literals, times a constant."""
    return 1 << max(0, 60 - len(clause))


def spelt(literals):
    return "".join(f"{literal} " for literal in literals) + "0"


def clauses_of(path):
    """Returns the clauses of a DIMACS formula."""
    clauses, clause, header = [], [], False
    with open(path, encoding="ascii", errors="replace", newline="\n") as file:
        for number, line in enumerate(file, 1):
            line = line.strip(BLANKS)
            if line[:1] == "%":
                break
            if line[:1] == "p" and HEADER.fullmatch(line) and not (header or clauses or clause):
                header = True
            elif line[:1] != "c":
                literals = list(map(int, line.split())) if NUMBERS.fullmatch(line + " ") else [LARGEST_NAME + 1]
                if literals and max(map(abs, literals)) > LARGEST_NAME:
                    raise Refused(f"line {number} of the formula has a word that is no literal")
                for literal in literals:
                    clause.append(literal)
                    if literal == 0:
                        clauses.append(clause[:-1])
                        clause = []
    if clause:
        raise Refused("the formula ends within a clause")
    return clauses


class Formula:
    """The text of clauses, and what splitting needs: the clauses that their units leave, and where each literal occurs in these."""

    def __init__(self, clauses):
        self.text = "".join(spelt(clause) + "\n" for clause in clauses)
        self.given = clauses

    def script(self, cubes):
        """Returns the text of the script that asks for these cubes."""
        return self.text + "".join(f"a {spelt(cube)}\n" for cube in cubes)

    def index(self, clauses):
        self.clauses = clauses
        self.where = collections.defaultdict(list)
        self.weights = collections.Counter()
        for place, clause in enumerate(clauses):
            for literal in clause:
                self.where[literal].append(place)
                self.weights[abs(literal)] += weight(clause)

    def prepare(self):
        """Makes what splitting needs, the first time."""
        if self.given is not None:
            clauses = [list(dict.fromkeys(clause)) for clause in self.given]
            self.given = None
            self.index(clauses)
            true = self.propagated([clause[0] for clause in clauses if len(clause) == 1])
            self.index([[l for l in clause if -l not in true] for clause in clauses if true.isdisjoint(clause)] if true is not None else [])

    def propagated(self, cube):
        """Returns the literals that unit propagation makes true, or `None` if it falsifies a clause."""
        true, waiting = set(), list(cube)
        while waiting:
            literal = waiting.pop()
            if literal in true:
                continue
            true.add(literal)
            for place in self.where.get(-literal, ()):
                if true.isdisjoint(self.clauses[place]):
                    left = [l for l in self.clauses[place] if -l not in true]
                    if not left:
                        return None
                    if len(left) == 1:
                        waiting.append(left[0])
        return true

    def halves(self, cube):
        """Returns the two halves of a cube, or nothing if it leaves no name."""
        self.prepare()
        true = self.propagated(cube)
        if true is None:
            return []
        weights = self.weights.copy()
        for place in {place for literal in true for sign in (literal, -literal) for place in self.where.get(sign, ())}:
            clause = self.clauses[place]
            left = [l for l in clause if -l not in true]
            for literal in clause:
                weights[abs(literal)] -= weight(clause)
            for literal in left if true.isdisjoint(clause) else ():
                weights[abs(literal)] += weight(left)
        name = max(weights, key=lambda name: (weights[name], -name), default=None)
        return [(*cube, name), (*cube, -name)] if name and weights[name] else []


class Tree:
    """What is known of the cubes: the cores, and the cubes of the last wave that are open."""

    def __init__(self):
        self.cores, self.open, self.scripts, self.splits = [], [], 0, 0
        self.by_last = collections.defaultdict(list)  # the cores, by the last literal of their cube

    def add(self, cubes, verdicts):
        """Adds the answers to a script."""
        self.scripts += 1
        for cube, core in zip(cubes, verdicts):
            if core is None:
                self.open.append(cube)
            else:
                self.cores.append(core)
                self.by_last[next((l for l in reversed(cube) if l in core), 0)].append(set(core))

    def is_closed(self, cube):
        """Returns `True` if a cube contains a core."""
        literals = set(cube)
        return any(core <= literals for literal in (*cube, 0) for core in self.by_last.get(literal, ()))

    def split(self, formula, jobs):
        """Returns cubes for the next wave, which have the valuations of the open ones: at least as many as `jobs`, if there are any."""
        cubes = []
        for cube in self.open:
            if not self.is_closed(cube):
                halves = formula.halves(cube)
                if not halves:
                    raise Refused(f"the cube `{spelt(cube)}` isn't answered, and leaves no name: it needs more --steps")
                cubes += [half for half in halves if not self.is_closed(half)]
        while 0 < len(cubes) < jobs:
            place = min(range(len(cubes)), key=lambda place: len(cubes[place]))
            halves = formula.halves(cubes[place])
            if not halves:
                break
            cubes[place : place + 1] = [half for half in halves if not self.is_closed(half)]
        return cubes

    def next_wave(self, formula, jobs, batch):
        """Returns the cubes of each script of the next wave."""
        cubes = self.split(formula, jobs) if self.scripts else [()]
        count = min(len(cubes), MOST_SCRIPTS, max(jobs, -(-len(cubes) // batch)))
        return [cubes[k * len(cubes) // count : (k + 1) * len(cubes) // count] for k in range(count)]

    def begin_wave(self):
        self.splits += len(self.open)
        self.open = []


# The files.

class Folder:
    def __init__(self, path):
        self.path = os.path.abspath(path)

    def at(self, name):
        return os.path.join(self.path, name)

    def has(self, name):
        return os.path.exists(self.at(name))

    def read(self, name):
        try:
            with open(self.at(name), encoding="ascii", errors="replace", newline="") as file:
                return file.read()
        except FileNotFoundError:
            raise Refused(f"{name} is missing") from None

    def write(self, name, text):
        """Writes a file that is there only as a whole."""
        with open(self.at(name + ".part"), "w", encoding="ascii") as file:
            file.write(text)
        os.replace(self.at(name + ".part"), self.at(name))

    def keep_script(self, name, text):
        """Writes a script, unless it is there."""
        if not self.has(name + ".script"):
            self.write(name + ".script", text)
        elif self.read(name + ".script") != text:
            raise Refused(f"{name}.script is another one: FOLDER has files of another formula, or damaged ones")

    def wave(self, wave):
        """Returns the cubes of each script of a wave."""
        scripts = {}
        for number, line in enumerate(self.read(f"wave-{wave}.cubes").splitlines(), 1):
            found = re.fullmatch(r"([1-9][0-9]*) ((?:-?[1-9][0-9]* )*)0", line)
            if not found:
                raise Refused(f"line {number} of wave-{wave}.cubes is no cube")
            scripts.setdefault(int(found[1]), []).append(tuple(map(int, found[2].split())))
        return scripts

    def verdicts(self, script, cubes):
        """Returns the core of each cube, `None` if the cube is open, or `True` if it has a model."""
        text, place, found = self.read(f"{script}.answers"), 0, []
        form = re.compile(r"s UNKNOWN\n|s UNSATISFIABLE\nf ((?:-?[0-9]+ )*)0\n|s (SAT)ISFIABLE\nv (?:-?[0-9]+ )*0\n")
        for cube in cubes:
            answer = form.match(text, place)
            if not answer:
                raise Refused(f"{script}.answers has no answer for the cube `{spelt(cube)}`")
            place = answer.end()
            found.append(True if answer[2] else None if answer[1] is None else list(map(int, answer[1].split())))
        if place < len(text):
            raise Refused(f"{script}.answers goes on after its last answer")
        return found

    def times(self):
        """Returns the processor times of all answers, and of confirming them, in seconds."""
        sums = [0.0, 0.0]
        for name in os.listdir(self.path):
            lines = self.read(name).splitlines() if name.endswith(".times") else []
            if len(lines) == 4:
                run, both = (sum(60 * int(m) + float(s) for m, s in re.findall(r"(\d+)m([\d.]+)s", lines[k])) for k in (1, 3))
                sums = [sums[0] + run, sums[1] + both - run]
        return sums


def negated(cores):
    """Returns the last script."""
    return "".join(spelt(-literal for literal in core) + "\n" for core in cores) + "a 0\n"


# The engines. `start` gets the numbers of a wave's scripts, and those of them that aren't answered; `busy` is called until it is `False`.

class Processes:
    """Processes of this machine."""
    pause = 0.02

    def __init__(self, folder, call, options, lock):
        self.call, self.jobs, self.lock = call, options.jobs, lock
        self.waiting, self.running = [], []

    def start(self, wave, scripts, missing):
        self.waiting = list(missing)

    def busy(self):
        self.running = [process for process in self.running if process.poll() is None]
        while self.waiting and len(self.running) < self.jobs:
            call = [*self.call, str(self.waiting.pop(0))]
            self.running.append(subprocess.Popen(call, stdin=subprocess.DEVNULL, preexec_fn=os.setpgrp, pass_fds=[self.lock]))
        return bool(self.running)

    def stop(self):
        self.waiting = []
        for process in self.running:
            if process.poll() is None:
                os.killpg(process.pid, signal.SIGKILL)
            process.wait()


class Parallel:
    """GNU parallel, with a log of jobs for each wave."""
    pause = 0.1

    def __init__(self, folder, call, options, lock):
        self.folder, self.lock, self.process, self.log = folder, lock, None, None
        self.words = ["--jobs", str(options.jobs), *(["--sshlogin", options.sshlogin] if options.sshlogin else []), shlex.join(call)]

    def start(self, wave, scripts, missing):
        log = self.folder.at(f"wave-{wave}.joblog")
        if log == self.log and os.path.exists(log):
            os.remove(log)  # it has jobs that failed, and all that succeeded end at once
        self.log = log
        call = ["parallel", "--will-cite", "--resume", "--joblog", log, *self.words, ":::", *map(str, scripts)]
        self.process = subprocess.Popen(call, stdin=subprocess.DEVNULL, preexec_fn=os.setpgrp, pass_fds=[self.lock])

    def busy(self):
        return self.process.poll() is None

    def stop(self):
        while self.process and self.busy():
            self.process.terminate()  # the first signal lets running jobs end, and the second one ends them
            time.sleep(self.pause)


class Slurm:
    """Slurm, with an array job for each wave. A job that an earlier run has left is waited for."""
    pause = 2

    def __init__(self, folder, call, options, lock):
        self.folder, self.call, self.options, self.job = folder, call, options, None

    def start(self, wave, scripts, missing):
        if self.folder.has("slurm.job"):
            self.job = self.folder.read("slurm.job").strip()
            return
        before = min(scripts) - 1
        tasks = ",".join(str(script - before) for script in missing)
        call = ["sbatch", "--parsable", "--job-name=cubes", f"--array={tasks}%{self.options.jobs}", "--open-mode=append",
                "--output=" + self.folder.at("slurm.log"), *shlex.split(self.options.sbatch),
                "--wrap", f"exec {shlex.join(self.call)} $((SLURM_ARRAY_TASK_ID + {before}))"]
        done = subprocess.run(call, capture_output=True, encoding="utf-8", check=False)
        if done.returncode:
            raise Refused("; ".join(done.stderr.strip().splitlines()) or f"sbatch has the status {done.returncode}")
        self.job = done.stdout.split(";")[0].strip()
        self.folder.write("slurm.job", self.job + "\n")

    def busy(self):
        done = subprocess.run(["squeue", "--noheader", "--jobs", self.job], capture_output=True, encoding="utf-8", check=False)
        if done.stdout.strip() or (done.returncode and "Invalid job id" not in done.stderr):
            return True
        self.job = None
        os.remove(self.folder.at("slurm.job"))
        return False

    def stop(self):
        if self.job:
            subprocess.run(["scancel", self.job], check=False)
        while self.job and self.busy():
            time.sleep(self.pause)


ENGINES = {"processes": Processes, "parallel": Parallel, "slurm": Slurm}


# Solving.

class Progress:
    """A line on standard error. On a terminal it is renewed each second, elsewhere there is a line each ten seconds and for each wave."""

    def __init__(self, folder, tree):
        self.folder, self.tree, self.begun, self.next = folder, tree, time.monotonic(), 0.0
        self.is_terminal = sys.stderr.isatty()

    def seconds(self):
        return time.monotonic() - self.begun

    def show(self, scripts, now=False):
        if now or self.seconds() >= self.next:
            self.next = self.seconds() + (1 if self.is_terminal else 10)
            names = [f"{script}.answers" for script, cubes in scripts.items() if cubes]
            answered = sum(self.folder.read(name).count("s UNSATISFIABLE\n") for name in names if self.folder.has(name))
            open = sum(map(len, scripts.values())) - answered
            line = f"{open} open, {len(self.tree.cores) + answered} answered, {self.tree.splits} split; {self.seconds():.0f} s"
            print(f"\r{line}  " if self.is_terminal else line, end="" if self.is_terminal else "\n", file=sys.stderr, flush=True)

    def end(self, waves):
        """Returns a line of sums, for the waves that were made."""
        if self.is_terminal:
            print(file=sys.stderr)
        run, confirm = self.folder.times()
        scripts, cubes = sum(len(wave) for wave in waves), sum(len(cubes) for wave in waves for cubes in wave.values())
        return (f"{len(waves)} waves, {scripts} scripts, {cubes} asks, {len(self.tree.cores)} answered, {self.tree.splits} split; "
                f"{self.seconds():.0f} s in this call; processor time: {run:.1f} s to answer, {confirm:.1f} s to confirm\n")


def with_model(folder, scripts):
    """Returns a script of these whose confirmed answers have a model, or `None`."""
    for script in scripts:
        if folder.has(f"{script}.said") and "s SATISFIABLE\n" in folder.read(f"{script}.answers"):
            return script
    return None


def last_words(folder, script, engine):
    """Returns why a script isn't answered, as far as logs say it."""
    def last_line(name):
        lines = folder.read(name).splitlines() if folder.has(name) else []
        return next((line.strip() for line in reversed(lines) if line.strip() and "] progress " not in line), "")

    own, outer = last_line(f"{script}.log"), last_line("slurm.log") if isinstance(engine, Slurm) else ""
    silent = "the program said nothing" if folder.has(f"{script}.log") else "it did not begin"
    return own or silent + (f"; slurm.log ends with: {outer}" if outer else "")


def answer(folder, engine, wave, scripts, progress):
    """Has the scripts of a wave answered and confirmed, or one that has a model."""
    for _ in range(3):
        missing = [script for script in scripts if not folder.has(f"{script}.said")]
        if not missing or with_model(folder, scripts):
            return
        try:
            engine.start(wave, scripts, missing)
            checked = time.monotonic()
            while engine.busy():
                progress.show(scripts)
                time.sleep(engine.pause)
                if time.monotonic() > checked + 1:
                    checked = time.monotonic()
                    if with_model(folder, scripts):
                        return
        finally:
            engine.stop()
    missing = [script for script in scripts if not folder.has(f"{script}.said")]
    if missing:
        raise Refused(f"script {missing[0]} isn't answered and confirmed: {last_words(folder, missing[0], engine)}")


def said_yes(folder, script):
    if folder.read(f"{script}.said") != "yes\n":
        raise Refused(f"the answers of {script}.script are not confirmed: {folder.read(f'{script}.said').strip()}")


def next_scripts(tree, formula, folder, wave, options):
    """Returns the scripts of the next wave, and writes them unless they are there. Returns nothing if no cube is open."""
    name = f"wave-{wave}.cubes"
    if not folder.has(name):
        lists = tree.next_wave(formula, options.jobs, options.batch)
        if not lists:
            return None
        folder.write(name, "".join(f"{script} {spelt(cube)}\n" for script, cubes in enumerate(lists, tree.scripts + 1) for cube in cubes))
    tree.begin_wave()
    scripts = folder.wave(wave)
    for script, cubes in scripts.items():
        folder.keep_script(str(script), formula.script(cubes))
    return scripts


def solve(formula, folder, engine, last_engine, options):
    """Answers cubes until none is open, and then the last script. Returns the result in words."""
    tree, waves = Tree(), []
    progress = Progress(folder, tree)
    while scripts := next_scripts(tree, formula, folder, len(waves) + 1, options):
        waves.append(scripts)
        progress.show(scripts, now=True)
        answer(folder, engine, len(waves), scripts, progress)
        found = with_model(folder, scripts)
        if found:
            said_yes(folder, found)
            return progress.end(waves) + f"satisfiable: the model in {found}.answers is confirmed"
        for script, cubes in scripts.items():
            said_yes(folder, script)
            tree.add(cubes, folder.verdicts(script, cubes))
    folder.keep_script("last", negated(tree.cores))
    answer(folder, last_engine, len(waves), {"last": []}, progress)
    said_yes(folder, "last")
    if folder.verdicts("last", [()]) != [[]]:
        raise Refused("the last script is not unsatisfiable")
    return progress.end(waves) + f"unsatisfiable: {len(tree.cores)} cores of {tree.scripts} scripts, and the last script, are confirmed"


def begin(formula, folder, program, options):
    """Takes the folder for itself, and solves."""
    os.makedirs(folder.path, exist_ok=True)
    lock = os.open(folder.at("lock"), os.O_CREAT | os.O_RDWR)
    try:
        fcntl.flock(lock, fcntl.LOCK_EX | fcntl.LOCK_NB)
    except BlockingIOError:
        print("waiting for another run in FOLDER, or for processes of one", file=sys.stderr, flush=True)
        fcntl.flock(lock, fcntl.LOCK_EX)
    if options.engine != "slurm" and folder.has("slurm.job"):
        raise Refused("tasks of an earlier run may go on: use --engine slurm, or end the job in slurm.job and remove this file")
    folder.write("answer", ANSWER)
    call = ["sh", folder.at("answer"), folder.path, program]
    engine = ENGINES[options.engine](folder, [*call, str(options.steps)], options, lock)
    last_engine = Processes(folder, [*call, str(MOST_STEPS)], options, lock)
    return solve(formula, folder, engine, last_engine, options)


# Confirming.

def confirmed(folder, program, script, text):
    """Raises `Refused` unless a script is this text, and the program confirms its answers."""
    if folder.read(f"{script}.script") != text:
        raise Refused(f"{script}.script is not what the formula and the cubes or cores make")
    texts = [f"{script}.{kind}" for kind in ("script", "answers", "certificate")]
    for name in texts:
        if not folder.has(name):
            raise Refused(f"{name} is missing")
    done = subprocess.run([program, "confirm", *map(folder.at, texts)], capture_output=True, encoding="ascii", check=False)
    if done.stdout != "yes\n" or done.returncode:
        raise Refused(f"the answers of {script}.script are not confirmed: {(done.stdout or done.stderr).strip()}")


def confirm(formula, folder, program, jobs):
    """Confirms a result from the files alone. Returns it in words."""
    scripts = {}
    for wave in itertools.count(1):
        if wave > 1 and not folder.has(f"wave-{wave}.cubes"):
            break
        scripts |= folder.wave(wave)
    for script, cubes in scripts.items():
        if folder.has(f"{script}.answers") and "s SATISFIABLE\n" in folder.read(f"{script}.answers"):
            confirmed(folder, program, script, formula.script(cubes))
            return f"satisfiable: the model in {script}.answers is confirmed"

    if not folder.has("last.script"):
        raise Refused("last.script is missing: the run hasn't ended")

    def cores(script):
        confirmed(folder, program, script, formula.script(scripts[script]))
        return [core for core in folder.verdicts(script, scripts[script]) if core is not None]
    with concurrent.futures.ThreadPoolExecutor(jobs) as pool:
        found = [core for part in pool.map(cores, scripts) for core in part]
    confirmed(folder, program, "last", negated(found))
    if folder.verdicts("last", [()]) != [[]]:
        raise Refused("the last script is not unsatisfiable")
    return f"unsatisfiable: {len(found)} cores of {len(scripts)} scripts, and the last script, are confirmed"


# Tests.

def small_formulas():
    """Yields names of small formulas, and their clauses."""
    spec = importlib.util.spec_from_file_location("formulas", os.path.join(HERE, "solver", "formulas.py"))
    make = importlib.util.module_from_spec(spec)
    spec.loader.exec_module(make)
    yield from ([f"pigeons-{holes}", make.pigeons(holes)[1]] for holes in (3, 4, 5))
    yield from ([f"parity-{names}", make.parity(names, names)[1]] for names in (5, 8, 10))
    for seed in range(8):
        yield f"random-{60 + 10 * seed}", make.random3(60 + 10 * seed, 4.3, seed)[1]
        yield f"planted-{60 + 10 * seed}", make.planted(60 + 10 * seed, 4.3, seed)[1]
    yield "colouring-20", make.colouring(20, 50, 3, 1)[1]
    yield "nothing", []
    yield "empty clause", [[1, 2], []]
    yield "units", [[1], [2, 2], [-2, 3, -3], [-1, -2]]


class Trial:
    """Calls this script in a folder for tests, with texts `formula` and folders of files."""

    def __init__(self, program):
        self.program = program

    def call(self, *words):
        """Returns the last line of a call, and its status."""
        done = subprocess.run([sys.executable, __file__, *words, self.program], capture_output=True, encoding="utf-8", check=False)
        return (done.stdout.splitlines() or [done.stderr.strip()])[-1], done.returncode

    def want(self, form, status, *words):
        """Ends the test unless a call has a last line of this form, and this status."""
        found = self.call(*words)
        if not re.match(form, found[0]) or found[1] != status:
            sys.exit(f"cubes.py {shlex.join(words)}: {found}, and not {form!r} in {os.getcwd()}")

    def verdict(self):
        """Returns the first word of a result, by one call of the program."""
        with open("formula", encoding="ascii") as file:
            script = file.read() + "a 0\n"
        done = subprocess.run([self.program], input=script, capture_output=True, encoding="ascii", check=True)
        return "satisfiable" if done.stdout.startswith("s SATISFIABLE") else "unsatisfiable"

    def solve(self, clauses, *options):
        """Solves a formula by cubes, and confirms the result. Returns its first word."""
        write("formula", "".join(spelt(clause) + "\n" for clause in clauses))
        shutil.rmtree("files", ignore_errors=True)
        verdict = self.verdict()
        self.want(verdict + ": ", 0, *options, "formula", "files")
        self.want(verdict + ": ", 0, "--confirm", "formula", "files")
        return verdict


def write(path, text):
    with open(path, "w", encoding="ascii") as file:
        file.write(text)


def write_program(path, lines):
    write(path, f"#!/bin/sh\n{lines}\n")
    os.chmod(path, 0o755)


def edit(path, form, made, count=1):
    """Changes the first places of a file that have a form. Returns `False` if there is none."""
    with open(path, encoding="latin-1", newline="") as file:
        text = file.read()
    changed = re.sub(form, made, text, count=count)
    with open(path, "w", encoding="latin-1", newline="") as file:
        file.write(changed)
    return changed != text


def script_with(form, kind="answers"):
    """Returns the number of the first script with such a line in a file."""
    numbers = sorted(int(name.split(".")[0]) for name in os.listdir("files") if re.fullmatch(r"\d+\." + kind, name))
    for number in numbers:
        with open(f"files/{number}.{kind}", encoding="ascii") as file:
            if re.search(form, file.read()):
                return number
    return sys.exit(f"no {kind} with {form!r}")


def damages():
    """Yields ways to damage the files of an unsatisfiable formula that was split: what is done, and the reason of the refusal."""
    core = script_with(r"f -?\d")
    answers, certificate, script, last = f"files/{core}.answers", f"files/{core}.certificate", f"files/{core}.script", "files/last.script"
    waves = sum(name.endswith(".cubes") for name in os.listdir("files"))
    unconfirmed = rf"refused: the answers of {core}.script are not confirmed: "
    yield lambda: edit(answers, r"f (-?\d+)", r"f -\1"), unconfirmed + "no [0-9]+ Answer(Text|Differs)"
    yield lambda: edit(answers, r"f -?\d+ ", "f "), unconfirmed + "no [0-9]+ AnswerDiffers"
    yield lambda: edit(answers, r"s UNSATISFIABLE\nf .*\n(?=(s|\Z))", "", 0), unconfirmed + "no [0-9]+ AnswerMissing"
    yield lambda: os.truncate(answers, os.path.getsize(answers) - 2) or True, unconfirmed + "no [0-9]+ AnswerText"
    yield lambda: edit(answers, r"\Z", "s UNKNOWN\n"), unconfirmed + "no [0-9]+ AnswerExtra"
    yield lambda: os.truncate(certificate, os.path.getsize(certificate) // 2) or True, unconfirmed + "no [0-9]+ "
    yield lambda: edit(script, r"\A.*\n", ""), rf"refused: {core}.script is not what"
    yield lambda: edit("formula", r"\A.*\n", ""), r"refused: \d+.script is not what"
    yield lambda: edit(f"files/wave-{waves}.cubes", r" -?(\d+) 0\n", r" \1 \1 0\n"), r"refused: \d+.script is not what"
    yield lambda: edit(f"files/wave-{waves}.cubes", r" 0\n", "\n"), rf"refused: line 1 of wave-{waves}.cubes is no cube"
    yield lambda: os.remove(f"files/wave-{waves}.cubes") or True, "refused: last.script is not what"
    yield lambda: edit(last, r"\A.*\n", ""), "refused: last.script is not what"
    yield lambda: edit("files/last.answers", "UNSATISFIABLE\nf 0", "UNKNOWN"), "refused: the last script is not unsatisfiable"
    for name in ("wave-1.cubes", f"{core}.script", f"{core}.answers", f"{core}.certificate", "last.script", "last.answers", "last.certificate"):
        yield lambda name=name: os.remove("files/" + name) or True, f"refused: {re.escape(name)} is missing"


def try_damaged(trial, clauses):
    """Damages the files of an unsatisfiable formula. Returns the number of refusals."""
    if trial.solve(clauses, "--steps", "20", "--jobs", "3") != "unsatisfiable":
        sys.exit("the formula to damage is satisfiable")
    shutil.copytree("files", "kept")
    shutil.copy("formula", "kept-formula")
    ways = list(damages())
    for count, (damage, form) in enumerate(ways):
        if not damage():
            sys.exit(f"damage {count}, for {form!r}, changes nothing")
        trial.want(form, 1, "--confirm", "formula", "files")
        shutil.rmtree("files")
        shutil.copytree("kept", "files")
        shutil.copy("kept-formula", "formula")
    return len(ways)


def try_missing_cores(trial):
    """Takes the last wave away, and has a last script of the other cores answered."""
    waves = sum(name.endswith(".cubes") for name in os.listdir("files"))
    folder = Folder("files")
    scripts = {script: cubes for wave in range(1, waves) for script, cubes in folder.wave(wave).items()}
    cores = [core for script, cubes in scripts.items() for core in folder.verdicts(script, cubes) if core is not None]
    os.remove(f"files/wave-{waves}.cubes")
    write("files/last.script", negated(cores))
    texts = [f"files/last.{kind}" for kind in ("script", "answers", "certificate")]
    subprocess.run([trial.program, "run", *texts], stderr=subprocess.DEVNULL, check=True)
    trial.want("refused: the last script is not unsatisfiable", 1, "--confirm", "formula", "files")


def try_model(trial, clauses):
    """Changes a model."""
    if trial.solve(clauses, "--steps", "20", "--jobs", "3") != "satisfiable":
        sys.exit("the formula to damage is unsatisfiable")
    found = script_with("s SATISFIABLE")
    edit(f"files/{found}.answers", r"v (-?\d+) ", lambda model: f"v {-int(model[1])} ")
    trial.want(f"refused: the answers of {found}.script are not confirmed: no [0-9]+ AnswerDiffers", 1, "--confirm", "formula", "files")


def interrupted(trial, engine, kind, scripts, **options):
    """Interrupts a run once this many scripts are confirmed. Returns the times at which they were, or `None` if the run ended before."""
    words = ["--engine", engine, "--steps", "50", "--batch", "1", "--jobs", "2", "formula", "files", trial.program]
    silent = {"stdout": subprocess.DEVNULL, "stderr": subprocess.DEVNULL}
    running = subprocess.Popen([sys.executable, __file__, *words], **silent, **options)
    while running.poll() is None:
        said = [name for name in os.listdir("files") if name.endswith(".said")] if os.path.exists("files") else []
        if len(said) >= scripts:
            running.send_signal(kind)
            running.wait()
            return {name: os.stat("files/" + name).st_mtime_ns for name in said}
        time.sleep(0.002)
    return None


def try_engine(trial, engine, clauses):
    """Solves a formula with an engine, in a run that is interrupted twice. Returns the numbers of scripts that were confirmed by then."""
    write("formula", "".join(spelt(clause) + "\n" for clause in clauses))
    shutil.rmtree("files", ignore_errors=True)
    kept, counts = {}, []
    for kind, scripts in ((signal.SIGINT, 5), (signal.SIGKILL, 12)):
        times = interrupted(trial, engine, kind, scripts)
        if times is None:
            sys.exit(f"{engine}: the run ended before it was interrupted")
        kept = times | kept
        counts.append(len(kept))
        trial.want("refused: last.script is missing: the run hasn't ended", 1, "--confirm", "formula", "files")
    trial.want("unsatisfiable: ", 0, "--engine", engine, "--steps", "50", "--batch", "1", "--jobs", "2", "formula", "files")
    trial.want("unsatisfiable: ", 0, "--confirm", "formula", "files")
    if any(os.stat("files/" + name).st_mtime_ns != when for name, when in kept.items()):
        sys.exit(f"{engine}: a script was answered again")
    return counts


def try_hangup(trial, clauses):
    """Hangs up on a run that ignores it, as under `nohup`."""
    write("formula", "".join(spelt(clause) + "\n" for clause in clauses))
    shutil.rmtree("files", ignore_errors=True)
    ignore = lambda: signal.signal(signal.SIGHUP, signal.SIG_IGN)
    kept = interrupted(trial, "processes", signal.SIGHUP, 3, preexec_fn=ignore)
    if kept is None or not os.path.exists("files/last.said"):
        sys.exit("a run that ignores SIGHUP was ended by it")


def has_engine(engine):
    if engine == "slurm":
        return bool(shutil.which("sinfo")) and subprocess.run(["sinfo"], capture_output=True, check=False).returncode == 0
    return engine == "processes" or bool(shutil.which(engine))


def try_refusals(trial):
    write("formula", "1 2 0\n-1 0\n")
    trial.want("satisfiable: ", 0, "formula", "files-1")
    write("formula", "1 2 0\n")
    trial.want("refused: 1.script is another one", 1, "formula", "files-1")
    for text in ("1 2", "1 x 0", "h 1 0", "1 0 a 1 0", "300000000 0", "p cnf 1\n1 0", "-0"):
        write("formula", text + "\n")
        trial.want("refused: (line 1 of the formula|the formula ends)", 1, "formula", "files-2")
    trial.want("refused: .*No such file", 1, "no-formula", "files-2")
    write("formula", "".join(spelt([sign_1 * 1, sign_2 * 2]) + "\n" for sign_1 in (1, -1) for sign_2 in (1, -1)))
    trial.want("refused: the cube `1 0` isn't answered, and leaves no name", 1, "--steps", "1", "formula", "files-3")
    trial.want("unsatisfiable: ", 0, "--steps", "9", "formula", "files-4")
    trial.want("refused: wave-1.cubes is missing", 1, "--confirm", "formula", "files-5")
    program, trial.program = trial.program, "./failing"
    for line, form in (("echo 'certify: OutOfMemory' >&2", "certify: OutOfMemory"), ("", "the program said nothing")):
        write_program("failing", f"{line}\nexit 3")
        trial.want(f"refused: script 1 isn't answered and confirmed: {form}$", 1, "formula", "files-5")
    write_program("failing", f'[ "$2" != last.script ] || exit 3\nexec {shlex.quote(program)} "$@"')
    trial.want("refused: script last isn't answered and confirmed: the program said nothing", 1, "formula", "files-6")
    if has_engine("slurm"):
        write_program("failing", "scancel $SLURM_JOB_ID\nexec sleep 60")
        form = "refused: script 1 isn't answered and confirmed: the program said nothing; slurm.log ends with: .*CANCELLED"
        trial.want(form, 1, "--engine", "slurm", "formula", "files-7")
        form = "refused: sbatch: unrecognized option '--unknown'; Try"
        trial.want(form, 1, "--engine", "slurm", "--sbatch", "--unknown", "formula", "files-7")
    trial.program = "no-program"
    trial.want("refused: there is no program", 1, "formula", "files-1")


def try_all(program):
    draw, trial = random.Random(1), Trial(program)
    with tempfile.TemporaryDirectory() as folder:
        os.chdir(folder)
        formulas = dict(small_formulas())
        for name, clauses in formulas.items():
            options = ["--steps", str(draw.choice([5, 20, 100])), "--batch", str(draw.choice([1, 3, 8])), "--jobs", str(draw.choice([1, 2, 5]))]
            verdict = trial.solve(clauses, *options)
            scripts = sum(name.endswith(".script") for name in os.listdir("files"))
            print(f"{name}: {verdict} by {scripts} scripts, confirmed", flush=True)
        print(f"{try_damaged(trial, formulas['random-90'])} ways of damage refused by name")
        try_missing_cores(trial)
        try_model(trial, formulas["planted-130"])
        for engine in filter(has_engine, ENGINES):
            counts = try_engine(trial, engine, formulas["random-130"])
            print(f"{engine}: interrupted after {counts[0]} and {counts[1]} scripts, gone on with, confirmed", flush=True)
        try_hangup(trial, formulas["random-130"])
        try_refusals(trial)
        print(f"{len(formulas)} formulas, and the engines {', '.join(filter(has_engine, ENGINES))}")
        os.chdir("/")


# The command line.

def interrupt(*_):
    raise KeyboardInterrupt


def found(program):
    """Returns the full path of a program."""
    if not (os.path.isfile(program) and os.access(program, os.X_OK)):
        raise Refused(f"there is no program {os.path.normpath(program)}: build it as README.md says, or give another one as PROGRAM")
    return os.path.abspath(program)


def joined(words):
    """Joins `--sbatch` and its value. Otherwise the parser takes a value that begins with `-` for an option."""
    words = list(words)
    while "--sbatch" in words[:-1]:
        place = words.index("--sbatch")
        words[place : place + 2] = ["--sbatch=" + words[place + 1]]
    return words


def positive(word):
    number = int(word)
    if number < 1:
        raise ValueError
    return number


def main():
    parser = argparse.ArgumentParser(usage=__doc__, add_help=False)
    parser.add_argument("--confirm", action="store_true")
    parser.add_argument("--engine", choices=ENGINES, default="processes")
    parser.add_argument("--jobs", type=positive, default=os.cpu_count())
    parser.add_argument("--steps", type=positive, default=50000)
    parser.add_argument("--batch", type=positive, default=8)
    parser.add_argument("--sshlogin")
    parser.add_argument("--sbatch", default="")
    parser.add_argument("formula")
    parser.add_argument("folder")
    parser.add_argument("program", nargs="?", default=PROVED)
    is_test = sys.argv[1:2] == ["try"] and len(sys.argv) <= 3
    options = None if is_test else parser.parse_args(joined(sys.argv[1:]))
    for kind in (signal.SIGTERM, signal.SIGHUP):
        if signal.getsignal(kind) != signal.SIG_IGN:  # `nohup` ignores SIGHUP
            signal.signal(kind, interrupt)
    try:
        if is_test:
            return try_all(found((sys.argv[2:] or [PROVED])[0]))
        program, folder = found(options.program), Folder(options.folder)
        formula = Formula(clauses_of(options.formula))
        print(confirm(formula, folder, program, options.jobs) if options.confirm else begin(formula, folder, program, options))
    except (Refused, OSError) as why:
        print("\n" * sys.stderr.isatty(), end="", file=sys.stderr, flush=True)
        print(f"refused: {why}")
        sys.exit(1)
    except KeyboardInterrupt:
        print("\n" * sys.stderr.isatty() + "interrupted: the same call continues the run", file=sys.stderr)
        sys.exit(130)
    return None


if __name__ == "__main__":
    main()
