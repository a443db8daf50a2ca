#!/usr/bin/env python3
"""Random programs and mutated sources through the built program `hydra`, which must give answers that fit together.

    fuzz/fuzz.py                          1,000 seeds
    fuzz/fuzz.py --count 100000           as many as one likes
    fuzz/fuzz.py --seconds 3600           until an hour is over
    fuzz/fuzz.py --seed 17 --count 1      one seed again
    fuzz/fuzz.py --jobs 4                 on so many processes; as many as there are processors, by itself

Each seed gives one source, always the same: two in three are random programs that are accepted, the others programs of this
repository that were mutated. Each source goes through `check`, `plain`, `run` with random workers and room, and `replay` with random
schedules. Refusals must be one and the same, `plain` and `run` must agree on text, end, regions and turns, and what a schedule settles
must be on the way of one worker alone. Nothing may hang or end by a signal. Where a C compiler is there (`--cc`, by itself gcc), a random
program is also translated to C, and its text, end and turns must be C's.

A source that fails is made small, written into `fuzz/found/`, and told. The last line has the figures; the exit status is 1 where
something failed.
"""

import argparse
import glob
import multiprocessing
import os
import random
import shutil
import sys
import tempfile
import time

sys.path.insert(0, os.path.dirname(os.path.abspath(__file__)))

from answers import Disagreement, Hydra, answers_of
from in_c import Batch
from programs import program_of, source_of
from smaller import smaller_program, smaller_source

HERE = os.path.dirname(os.path.abspath(__file__))

BATCH = 60

TOKENS = [
    b"int", b"void", b"if", b"else", b"while", b"for", b"pwhile", b"pfor", b"break", b"continue", b"return", b"print", b"emit",
    b"main", b"(", b")", b"{", b"}", b"[", b"]", b",", b";", b"=", b"+", b"-", b"*", b"/", b"%", b"&", b"|", b"^", b"~", b"!", b"<",
    b">", b"<<=", b"++", b"--", b"&&", b"||", b"==", b"0", b"1", b"2147483647", b"2147483648", b"08", b"x", b"a", b"/*", b"*/", b"//",
    b"\n", b" ", b"?", b"\x00", b"\xff", b"x" * 64,
]


def corpus():
    """The repository's own programs."""
    found = []
    for pattern in ("examples/*.hc", "forms/*/*.hc", "bench/programs/*.hc"):
        for path in sorted(glob.glob(os.path.join(HERE, "..", pattern))):
            with open(path, "rb") as source:
                found.append(source.read())
    return found


def mutated(rng, sources):
    """A source with some bytes or words changed, left out, put in, doubled or exchanged."""
    source = bytearray(rng.choice(sources)) if sources and rng.random() < 0.5 else bytearray(source_of(program_of(rng.randrange(1 << 40))).encode())
    other = rng.choice(sources) if sources else bytes(source)
    for _ in range(rng.choice([1, 1, 1, 2, 3, 8])):
        at = rng.randrange(len(source) + 1)
        to = min(len(source), at + rng.choice([1, 1, 2, 5, 20, 200]))
        roll = rng.randrange(7)
        if roll == 0:
            source[at:at] = rng.choice(TOKENS)
        elif roll == 1:
            source[at:to] = b""
        elif roll == 2:
            source[at:to] = rng.choice(TOKENS)
        elif roll == 3:
            source[at:at] = source[at:to]
        elif roll == 4 and at < len(source):
            source[at] = rng.randrange(256)
        elif roll == 5:
            begin = rng.randrange(len(other) + 1)
            source[at:at] = other[begin:begin + rng.choice([5, 20, 100])]
        elif roll == 6:
            source[at:to] = bytes(reversed(source[at:to]))
    return bytes(source[:70_000])


class Tally:
    """What was tried, and what came of it."""

    def __init__(self):
        self.programs = self.ended = self.faults = self.more = self.regions = self.in_c = 0
        self.mutated = self.refused = self.accepted = 0
        self.failed = self.calls = 0

    def add(self, other):
        for name, count in vars(other).items():
            setattr(self, name, getattr(self, name) + count)

    def line(self, seconds):
        return (
            "%d random programs (%d ended, %d of them by a fault; %d not over; %d with a region; %d compared with C), "
            "%d mutated sources (%d refused, %d accepted), %d calls of hydra, %d seconds: %d disagreements" % (
                self.programs, self.ended, self.faults, self.more, self.regions, self.in_c,
                self.mutated, self.refused, self.accepted, self.calls, seconds, self.failed))


class Fuzz:
    def __init__(self, words):
        self.words = words
        self.folder = tempfile.mkdtemp(prefix="hydra-fuzz-")
        self.hydra = Hydra(words.hydra, self.folder)
        self.compiler = shutil.which(words.cc) if words.cc else None
        self.sources = corpus()
        self.tally = Tally()

    # ---- one source

    def finish_of(self, seed, program):
        self.hydra.put(source_of(program).encode(), program.numbers)
        finish = answers_of(self.hydra, random.Random(seed + 1), runs=2, replays=1)
        if finish is None:
            raise Disagreement("a program that is one is refused")
        return finish

    def compare_with_c(self, batch, number, finish):
        answer = batch.answer(number)
        if answer is None:
            raise Disagreement("the C program doesn't end")
        text, end, turns = answer
        if text != finish.text:
            raise Disagreement("plain prints another text than C")
        if end != finish.end:
            raise Disagreement("plain ends otherwise than C", "%s in C, %s in plain" % (end, finish.end))
        if turns != finish.counts[b"turns"]:
            raise Disagreement("plain counts other turns than C", "%d in C, %d in plain" % (turns, finish.counts[b"turns"]))

    def kind_of(self, seed, program):
        """How a program fails, or None."""
        try:
            finish = self.finish_of(seed, program)
            if finish != "more" and self.compiler:
                batch = Batch([program], self.folder, self.compiler)
                if batch.is_built:
                    self.compare_with_c(batch, 0, finish)
        except Disagreement as failure:
            return failure.kind
        return None

    def failed(self, seed, failure, source, numbers):
        self.tally.failed += 1
        folder = self.words.found
        os.makedirs(folder, exist_ok=True)
        path = os.path.join(folder, "seed_%d" % seed)
        with open(path + ".hc", "wb") as out:
            out.write(source)
        if numbers:
            with open(path + ".in", "w") as out:
                out.write(" ".join(str(number) for number in numbers))
        with open(path + ".txt", "w") as out:
            out.write("%s\n%s\n" % (failure.kind, failure.more))
        print("seed %d: %s: %s.hc" % (seed, failure.kind, path), flush=True)

    def program_fails(self, seed, program, failure):
        if not self.words.as_it_is:
            program = smaller_program(program, lambda smaller: self.kind_of(seed, smaller) == failure.kind)
        self.failed(seed, failure, source_of(program).encode(), program.numbers)

    # ---- many

    def programs(self, seeds):
        """Random programs, those that ended compared with C together."""
        ended = []
        for seed in seeds:
            program = program_of(seed)
            self.tally.programs += 1
            try:
                finish = self.finish_of(seed, program)
            except Disagreement as failure:
                self.program_fails(seed, program, failure)
                continue
            if finish == "more":
                self.tally.more += 1
                continue
            self.tally.ended += 1
            self.tally.faults += not finish.end.startswith("normal")
            self.tally.regions += finish.counts[b"regions"] > 0
            ended.append((seed, program, finish))
        if ended and self.compiler:
            self.all_with_c(ended)

    def all_with_c(self, ended):
        batch = Batch([program for _, program, _ in ended], self.folder, self.compiler)
        if not batch.is_built:
            raise SystemExit("fuzz: the C compiler refuses a translation: " + batch.told[:2000])
        for number, (seed, program, finish) in enumerate(ended):
            self.tally.in_c += 1
            try:
                self.compare_with_c(batch, number, finish)
            except Disagreement as failure:
                self.program_fails(seed, program, failure)

    def mutation_kind(self, seed, source):
        self.hydra.put(source)
        try:
            answers_of(self.hydra, random.Random(seed + 1))
        except Disagreement as failure:
            return failure.kind
        return None

    def mutation(self, seed):
        source = mutated(random.Random(seed), self.sources)
        self.hydra.put(source)
        self.tally.mutated += 1
        try:
            finish = answers_of(self.hydra, random.Random(seed + 1))
        except Disagreement as failure:
            if not self.words.as_it_is:
                source = smaller_source(source, lambda shorter: self.mutation_kind(seed, shorter) == failure.kind)
            self.failed(seed, failure, source, [])
            return
        if finish is None:
            self.tally.refused += 1
        else:
            self.tally.accepted += 1

    def batch(self, seeds):
        """So many seeds: what was tried of them."""
        self.tally, self.hydra.calls = Tally(), 0
        self.programs([each for each in seeds if each % 3 != 2])
        for each in seeds:
            if each % 3 == 2:
                self.mutation(each)
        self.tally.calls = self.hydra.calls
        return self.tally


def work(words, first, until, tallies):
    """One of the processes: every so many batches from the first on. It ends with None, or with what has stopped it."""
    fuzz = Fuzz(words)
    ending = None
    try:
        last = words.seed + words.count
        for seed in range(first, last, BATCH * words.jobs):
            if until is not None and time.time() > until:
                break
            tallies.put(fuzz.batch(range(seed, min(last, seed + BATCH))))
    except SystemExit as stop:
        ending = str(stop)
    except KeyboardInterrupt:
        ending = "interrupted"
    except Exception as error:  # a fault of these scripts, told by the process that started them
        ending = "%s: %s" % (type(error).__name__, error)
    finally:
        shutil.rmtree(fuzz.folder)
        tallies.put((ending,))


def go(words):
    """All processes, and the figures of all of them together."""
    begun = told = time.time()
    until = begun + words.seconds if words.seconds else None
    tallies = multiprocessing.Queue()
    workers = []
    for number in range(words.jobs):
        worker = multiprocessing.Process(target=work, args=(words, words.seed + BATCH * number, until, tallies))
        worker.start()
        workers.append(worker)
    whole, stopped, running = Tally(), [], len(workers)
    while running:
        found = tallies.get()
        if isinstance(found, Tally):
            whole.add(found)
        else:
            running -= 1
            stopped += [each for each in found if each is not None]
        if time.time() - told > 60:
            told = time.time()
            print(whole.line(told - begun), flush=True)
    for worker in workers:
        worker.join()
    print(whole.line(time.time() - begun))
    for each in stopped:
        print("fuzz: stopped: " + each)
    return 1 if whole.failed or stopped else 0


def main():
    parser = argparse.ArgumentParser(description=__doc__, formatter_class=argparse.RawDescriptionHelpFormatter)
    parser.add_argument("--hydra", default=os.path.join(HERE, "..", "crates", "hydra", "out", "hydra"), help="the built program")
    parser.add_argument("--seed", type=int, default=1, help="the first seed")
    parser.add_argument("--count", type=int, default=None, help="how many seeds")
    parser.add_argument("--seconds", type=int, default=0, help="stop after so long")
    parser.add_argument("--jobs", type=int, default=os.cpu_count() or 1, help="how many processes")
    parser.add_argument("--cc", default="gcc", help="the C compiler; an empty word for none")
    parser.add_argument("--found", default=os.path.join(HERE, "found"), help="where failing sources are written")
    parser.add_argument("--as-it-is", action="store_true", help="don't make failing sources small")
    words = parser.parse_args()
    if words.count is None:
        words.count = 1 << 40 if words.seconds else 1000
    if not os.access(words.hydra, os.X_OK):
        raise SystemExit("fuzz: %s is no program: 'cd crates/hydra && rt run -- --help' builds it" % words.hydra)
    words.jobs = max(1, words.jobs)
    sys.exit(go(words))


if __name__ == "__main__":
    main()
