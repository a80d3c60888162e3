"""edits.py: the must-fail edits, and what the prover says of the crates with them. It is read by tools/check-edits and tools/apart.

An edit holds one wrong program or several, each behind a line of its own:
  wrong: NAME in FUNCTION            a function is wrong: its own proof must fail
  wrong: NAME in FUNCTION at GOAL    of two wrong places in one function: what its proof says of this goal, or of a clause of it, must fail
  wrong: NAME by FACT                a definition is wrong: this fact of the crate must fail
In names that an edit says - and _ are the same.

A check goes over the libraries that tools/crates.py finds, and from nothing else. What it said is kept on this machine by a sum of all that it read, below
$XDG_CACHE_HOME or ~/.cache, so that only what has changed is checked again.
"""
import concurrent.futures
import glob
import hashlib
import os
import re
import shutil
import signal
import subprocess
import sys
import tempfile
import time

import crates

KEPT = os.path.join(os.environ.get("XDG_CACHE_HOME") or os.path.expanduser("~/.cache"), "planksling", "edits")
# For so many days a log that is not asked for is kept.
DAYS = 30


class Wrong:
    """A wrong program: its name, whether a function is wrong (`in`) or a definition (`by`), which function or fact, at which goal, and its changes."""

    def __init__(self, words):
        self.name, self.how, self.what = words[1:4]
        self.need = words[5] if len(words) == 6 and words[4] == "at" else ""
        self.changes = []


class Edit:
    def __init__(self, path):
        way = path.split("/")
        self.crate, self.name = way[-3], way[-1][: -len(".edit")]
        self.wrong, self.fault = [], ""
        file = old = None
        with open(path, encoding="utf-8") as it:
            for line in it.read().split("\n"):
                words = line.split()
                if line.startswith("wrong:"):
                    if len(words) not in (4, 6) or words[2] not in ("in", "by"):
                        self.fault = f"no line `wrong: NAME in FUNCTION`: {line}"
                        return
                    self.wrong.append(Wrong(words))
                elif line.startswith("file: "):
                    file = line[len("file: ") :].strip()
                elif line.startswith("old: "):
                    old = line[len("old: ") :]
                elif line.startswith("new:"):
                    if not self.wrong or not file or not old:
                        self.fault = "a change stands before any line `wrong: NAME in FUNCTION`, `file:` or `old:`"
                        return
                    self.wrong[-1].changes.append((file, old, line[len("new:") :].removeprefix(" ")))
                    old = None
        if not self.wrong:
            self.fault = "no line `wrong: NAME in FUNCTION`"


def edits_of(names):
    """The edits of the crates or of the edits CRATE/EDIT that are named, or all."""
    found = [Edit(it) for it in sorted(glob.glob(f"{crates.TOP}/crates/*/must-fail/*.edit"))]
    return [it for it in found if not names or it.crate in names or f"{it.crate}/{it.name}" in names]


def edited(crate, wrong):
    """The texts of the files that these wrong programs change, by their path in the crate."""
    texts = {}
    for it in wrong:
        for file, old, new in it.changes:
            if file not in texts:
                with open(f"{crates.TOP}/crates/{crate}/{file}", encoding="utf-8") as text:
                    texts[file] = text.read()
            if texts[file].count(old) != 1:
                raise ValueError(f"{it.name}: `{old}` stands in {file} {texts[file].count(old)} times, and not once")
            texts[file] = texts[file].replace(old, new)
    return texts


def checked(crate, texts):
    """What the prover says of a copy of the crate with these texts in place of its own, and whether that is a verdict."""
    for _ in range(2):
        with tempfile.TemporaryDirectory(prefix="planksling-edit-") as room:
            for part in crates.PARTS:
                if os.path.isdir(f"{crates.TOP}/crates/{crate}/{part}"):
                    shutil.copytree(f"{crates.TOP}/crates/{crate}/{part}", f"{room}/{part}")
            for file, text in texts.items():
                with open(f"{room}/{file}", "w", encoding="utf-8") as it:
                    it.write(text)
            how = {"cwd": room, "stdin": subprocess.DEVNULL, "stdout": subprocess.PIPE, "stderr": subprocess.STDOUT, "text": True, "errors": "replace"}
            ran = subprocess.run([f"{crates.kit()}/bin/rattle", "check", *crates.words(crate), "--jobs", "1"], **how)
        # killed, most likely for memory: once more
        if ran.returncode != -signal.SIGKILL:
            break
    return ran.stdout, ran.returncode in (0, 1, 3) and bool(re.search(r"(?m)^logic=", ran.stdout))


def lanes():
    """How many checks go side by side: as many as there are processors, and 2 GB of memory for each."""
    with open("/proc/meminfo", encoding="ascii") as file:
        free = int(re.search(r"MemAvailable:\s+(\d+)", file.read())[1]) // 2_000_000
    return max(1, min(len(os.sched_getaffinity(0)), free))


def logs_of(tries):
    """What the prover says of each of these, a crate and some of its wrong programs. Returns their logs; a try that cannot be made has words that say why."""
    logs, left = {}, {}
    try:
        os.makedirs(KEPT, exist_ok=True)
        for file in os.scandir(KEPT):
            if file.stat().st_mtime < time.time() - 86400 * DAYS:
                os.remove(file)
    except OSError:
        pass
    for number, (crate, wrong) in enumerate(tries):
        try:
            texts = edited(crate, wrong)
        except (OSError, ValueError) as error:
            logs[number] = f"not tried: {error}"
            continue
        key = repr((crates.sums_of([crate, *crates.below(crate)]), sorted(texts.items())))
        kept = f"{KEPT}/{hashlib.sha256(key.encode()).hexdigest()}"
        try:
            with open(kept, encoding="utf-8") as it:
                logs[number] = it.read()
            os.utime(kept)
        except OSError:
            left[number] = (crate, texts, kept)
    # those that stand on most come first
    for crate in sorted({it[0] for it in left.values()}, key=lambda it: -len(crates.below(it))):
        crates.make_ready(crate)

    def one(number):
        crate, texts, kept = left[number]
        said, is_verdict = checked(crate, texts)
        if is_verdict:
            try:
                with tempfile.NamedTemporaryFile("w", dir=KEPT, delete=False, encoding="utf-8") as it:
                    it.write(said)
                os.replace(it.name, kept)
            except OSError:
                pass
            return said
        return f"not tried: {said[-300:]}"

    with concurrent.futures.ThreadPoolExecutor(lanes()) as pool:
        for number, said in zip(left, pool.map(one, left)):
            logs[number] = said
    print(f"{len(left)} of {len(tries)} checks were made now, the others are kept from earlier runs on this machine", file=sys.stderr)
    return [logs[number] for number in range(len(tries))]


def same(a, b):
    return a.replace("_", "-") == b.replace("_", "-")


def is_at(fact, goal):
    """Is the fact this goal, or a clause of it?"""
    return same(fact.split("-clause-")[0], goal) or same(fact, goal)


class Fault:
    """An error, or a goal without an answer that the prover's own search did not reach: where, of which fact or goal, and what is said."""

    def __init__(self, file, function, fact, text):
        self.file, self.function, self.fact, self.text, self.is_taken = file, function, fact, text, False

    def proves(self, function, cycles):
        """Is it in the proof of this function? a/f/Answers.antt is of f, +f+g/Proof.antt of f and g, and +name/Proof.antt of the cycle of this name."""
        if self.function:
            return self.function == function
        way = self.file.split("/")
        if len(way) < 2 or way[-1] not in ("Proof.antt", "Answers.antt", "Invariants.antt"):
            return False
        return function in way[-2].split("+") or function in cycles.get(way[-2].removeprefix("+"), ())


class Log:
    ERROR = re.compile(r"(?:\./)?(\S+?):\d+:\d+: error: (?:`([^`]*)`: )?(.*)")
    GOAL = re.compile(r"note: (?:\./)?(\S+?):(\d+):\d+: it is not proved that .*\(`([^`]+)`\)(.*)")
    FUNCTION = re.compile(r"fn (\S+): (not proved|no proof)(.*)")

    def __init__(self, said, texts, crate):
        self.is_refused = bool(re.search(r"(?m)^logic=not-proved", said))
        self.faults, self.admitted, self.alone, self.calls = [], set(), {}, set()
        self.cycles = {}
        self.sources = dict(texts)
        for at, _, names in os.walk(f"{crates.TOP}/crates/{crate}/src"):
            for name in names:
                path = os.path.relpath(f"{at}/{name}", f"{crates.TOP}/crates/{crate}")
                with open(f"{at}/{name}", encoding="utf-8") as it:
                    self.sources.setdefault(path, it.read())
        for text in self.sources.values():
            for cycle, function in re.findall(r"(?m)^\s*#\[cycle\((\w+)\)\]\n(?:\s*#.*\n|\s*//.*\n)*[^\n]*?\bfn (\w+)", text):
                self.cycles.setdefault(cycle, set()).add(function)
        for line in said.split("\n"):
            error, goal, function = self.ERROR.match(line), self.GOAL.match(line), self.FUNCTION.match(line)
            if error:
                # what only rests on another error shows nothing
                if not re.search(r"declarations? that depends? on .* not checked|not admitted, so this file is not accepted", error[3]):
                    self.faults.append(Fault(error[1], "", error[2] or "", line))
            elif goal:
                self.faults.append(Fault(goal[1], self.function_at(goal[1], int(goal[2])), goal[3], line))
            elif function:
                name = function[1].split("::")[-1]
                if re.search(r"[;:] it calls ", function[3]):
                    self.calls.add(name)
                else:
                    self.alone[name] = function[2] == "no proof"
            elif re.search(r"trial.*admitted by the kernel", line):
                of = re.search(r"\(in `([^`]+)`\)$", line)
                self.admitted.add((re.sub(r"^(\./)?([^:]*):.*", r"\2", line), of[1] if of else ""))

    def function_at(self, file, number):
        """The function in which this line stands; an attribute stands in the one below it."""
        lines = self.sources.get(file, "").split("\n")
        while number < len(lines) and lines[number - 1].lstrip().startswith("#["):
            number += 1
        lines = lines[:number]
        found = [it for line in lines for it in re.findall(r'^(?:\s*)(?:pub )?(?:extern "C" )?fn (\w+)', line)]
        return found[-1] if found else "?"

    def is_unfit(self, fault):
        """Does the proof no longer fit the code?"""
        words = r"can be named from here|on the face|is not in scope|has no field|has no `|has type `(tie|goal)[.]"
        return not fault.function and bool(re.search(words, fault.text))

    def kind(self, fault):
        if not self.admitted.isdisjoint([(fault.file, fault.fact), (fault.file, "")]):
            return "admitted"
        if fault.function and "allow values at which this goal is false" in fault.text:
            return "fact"
        if self.is_unfit(fault):
            return "unfit"
        limits = r"give the call less to do|gave up at one of its limits|ran out of (stack|the (steps|memory))|(outgrew the memory limit|stopped at the step limit) \("
        if re.search(limits, fault.text):
            return "given-up"
        # a goal that is searched where an answer of the same function no longer fits: that one may be what it lacks
        if fault.function and any(self.is_unfit(it) and it.proves(fault.function, self.cycles) for it in self.faults):
            return "unfit"
        return "fact"

    def found(self, wrong):
        """The faults by which a wrong program is refused, those that show something first."""
        if wrong.how == "by":
            mine = [it for it in self.faults if same(it.fact, wrong.what)]
        else:
            mine = [it for it in self.faults if it.proves(wrong.what, self.cycles) and (not wrong.need or is_at(it.fact, wrong.need))]
        return sorted(mine, key=lambda it: self.kind(it) != "fact")

    def proved_with(self, function):
        """The functions whose proof is this one's: those that call each other."""
        return {function}.union(*[it for it in self.cycles.values() if function in it])
