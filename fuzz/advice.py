#!/usr/bin/env python3
"""Whether what `hydra advise` calls independent repeats nothing.

    fuzz/advice.py                     every program of examples/ and forms/, and those of the tests of advice
    fuzz/advice.py FILE..              these
    fuzz/advice.py --schedules 50      so many random schedules for each time that a loop is opened
    fuzz/advice.py --hydra PROGRAM     another program than crates/hydra/out/hydra
    fuzz/advice.py --verdicts          prints the advice on each program too

Where `advise` says that a loop isn't independent, its mark is taken away, and `advise` is asked again, until all loops that are opened are
independent. Then random schedules are replayed from the first times that a loop is opened. No worker gives an iteration up in a replay, so
each must count 0 repeats. The last line has the figures; the exit status is 1 where something failed.
"""

import argparse
import os
import random
import re
import subprocess
import sys
import tempfile

ROOT = os.path.dirname(os.path.dirname(os.path.abspath(__file__)))

HEADING = re.compile(r"region (\d+) in (\w+), line (\d+): (?:opened (\d+) times?, (\d+) turns?|not opened)")

STEPS = "2000000"

# The programs of these tests, whose verdicts were found by hand.
TESTS = os.path.join("crates", "hx_tests_commands", "src", "advising.rt")

TESTED = re.compile(r'says\(\s*&rt,\s*b"((?:[^"\\]|\\.)*)"', re.DOTALL)


def tested(folder):
    """The programs of the tests, as files."""
    if not os.path.exists(os.path.join(ROOT, TESTS)):
        return
    with open(os.path.join(ROOT, TESTS)) as text:
        sources = TESTED.findall(text.read())
    for number, source in enumerate(sources):
        path = os.path.join(folder, f"tested-{number}.hc")
        with open(path, "w") as out:
            out.write(re.sub(r"\\(.)", lambda escape: {"n": "\n"}.get(escape[1], escape[1]), source))
        yield path


def programs():
    for folder in ("examples", "forms"):
        for where, _, names in sorted(os.walk(os.path.join(ROOT, folder))):
            for name in sorted(names):
                if name.endswith(".hc"):
                    yield os.path.join(where, name)


def call(hydra, *words):
    done = subprocess.run([hydra, *words], stdout=subprocess.PIPE, stderr=subprocess.PIPE, timeout=600)
    return done.returncode, done.stdout.decode("latin-1"), done.stderr.decode("latin-1")


def loops_of(advice):
    """Of each loop its line, how often it was opened, and whether it was independent."""
    loops = []
    for line in advice.splitlines():
        heading = HEADING.fullmatch(line)
        if heading:
            loops.append([int(heading[3]), int(heading[4] or 0), None])
        elif line.startswith("  independent:"):
            loops[-1][2] = True
        elif line.startswith("  not independent:"):
            loops[-1][2] = False
    return loops


def without_marks(source, numbers):
    lines = source.split("\n")
    for number in numbers:
        lines[number - 1] = re.sub(r"\bp(for|while)\b", r"\1", lines[number - 1])
    return "\n".join(lines)


class Failed(Exception):
    pass


class Trial:
    def __init__(self, hydra, folder, schedules, tells):
        self.hydra = hydra
        self.file = os.path.join(folder, "program.hc")
        self.schedules = schedules
        self.tells = tells
        self.replays = 0
        self.independent = 0
        self.dependent = 0

    def advised(self, source, given):
        with open(self.file, "w") as out:
            out.write(source)
        status, advice, told = call(self.hydra, "advise", self.file, "--steps", STEPS, *given)
        if status != 0:
            raise Failed(f"advise: status {status}: {told.strip()}")
        return advice

    def on(self, path):
        given = []
        if os.path.exists(path[:-3] + ".in"):
            given = ["--input", path[:-3] + ".in"]
        with open(path) as text:
            source = text.read()
        advice = self.advised(source, given)
        if self.tells:
            print(advice, end="")
        loops = loops_of(advice)
        self.independent += sum(1 for _, _, is_independent in loops if is_independent)
        self.dependent += sum(1 for _, _, is_independent in loops if is_independent is False)
        while any(is_independent is False for _, _, is_independent in loops):
            source = without_marks(source, [line for line, _, is_independent in loops if is_independent is False])
            loops = loops_of(self.advised(source, given))
        opened = sum(times for _, times, _ in loops)
        for entry in range(1, min(opened, 3) + 1):
            for _ in range(self.schedules):
                self.replay(entry, given)

    def replay(self, entry, given):
        workers = random.randint(1, 8)
        schedule = "".join(str(random.randrange(workers)) for _ in range(random.randint(1, 400)))
        room = ["--marks", str(random.choice((1, 2, 8, 512))), "--buffer", str(random.choice((1, 2, 8, 512)))]
        words = ["--workers", str(workers), "--entry", str(entry), "--steps", STEPS, *room, *given]
        status, text, told = call(self.hydra, "replay", self.file, schedule, *words)
        self.replays += 1
        if told == f"hydra: not ended after {STEPS} steps\n":
            return
        if status != 0:
            raise Failed(f"replay {schedule} {' '.join(words)}: status {status}: {told.strip()}")
        counts = dict(re.findall(r"^(repeats|abandons) (\d+)$", text, re.MULTILINE))
        if counts != {"repeats": "0", "abandons": "0"}:
            raise Failed(f"replay {schedule} {' '.join(words)}: {counts}")


def main():
    parser = argparse.ArgumentParser(description=__doc__, formatter_class=argparse.RawDescriptionHelpFormatter)
    parser.add_argument("files", nargs="*")
    parser.add_argument("--schedules", type=int, default=8)
    parser.add_argument("--seed", type=int, default=1)
    parser.add_argument("--hydra", default=os.path.join(ROOT, "crates/hydra/out/hydra"))
    parser.add_argument("--verdicts", action="store_true")
    asked = parser.parse_args()
    random.seed(asked.seed)
    failed = 0
    with tempfile.TemporaryDirectory() as folder:
        files = asked.files or [*programs(), *tested(folder)]
        trial = Trial(asked.hydra, folder, asked.schedules, asked.verdicts)
        for path in files:
            if asked.verdicts:
                print(f"{os.path.relpath(path, folder if path.startswith(folder) else ROOT)}:")
            try:
                trial.on(path)
            except Failed as why:
                failed += 1
                print(f"{path}: {why}", flush=True)
    print(f"{len(files)} programs, {trial.independent} independent loops, {trial.dependent} others, {trial.replays} replays, {failed} failed")
    return 1 if failed else 0


if __name__ == "__main__":
    sys.exit(main())
