#!/usr/bin/env python3
"""A machine that fails, around the built program `hydra`: each of its allocations refused in turn, threads that don't start, and outputs
that take nothing. And the allocations of runs with few and with many marked loops, counted. A C compiler is wanted.

    fuzz/refuse.py                       all of it
    fuzz/refuse.py --hydra PROGRAM       another build

Behind a refused allocation a command writes what it writes else, with its own status, or nothing but `hydra: memory`, with status 3.
Without threads it writes what it writes else. A run takes memory as often with nine marked loops as with one. A full disk and a pipe whose reader has gone are status 4 and `hydra: write failed`.
The last line has the figures; the exit status is 1 where something failed.
"""

import argparse
import os
import shutil
import subprocess
import sys
import tempfile

HERE = os.path.dirname(os.path.abspath(__file__))

SQUARES = "int a[8]; int main(){ pfor(int i=0;i<8;i++) a[i]=i*i; print(a[7]); }"
NEEDED = "int a; int b; int c; int main(){ pwhile(c<2){ a=a+1; print(a); b=b+a; print(b); c=c+1; } }"
FOUND = (
    "int find(int k){ pfor(int i=0;i<9;i++){ if(i*i==k) return i; } return -1; }"
    " int main(){ print(find(49)); print(find(50)); }")
HIGHEST = "int main(){ print(%s1%s); }" % ("(" * 195, ")" * 195)
HIGHER = "int main(){ print(%s1%s); }" % ("(" * 196, ")" * 196)
SUM = "int in[3]; int n_in; int main(){ int s=0; pfor(int i=0;i<n_in;i++) s+=in[i]; print(s); return s; }"
LOOPS = "int c; int main(){ int k; for(k=0;k<%d;k++) pfor(int i=0;i<2;i++) c+=k; print(c>=0); }"
PAST = "int a[4]; int main(){ pfor(int i=0;i<8;i++){ a[i]=i+1; print(i);} }"

# what each program prints
PRINTED = {
    SQUARES: b"49\n", NEEDED: b"1\n1\n2\n3\n", FOUND: b"7\n-1\n", HIGHEST: b"1\n", HIGHER: b"", SUM: b"-2\n", PAST: b"0\n1\n2\n3\n",
}

SETTINGS = [["--workers", "1"], ["--workers", "4"], ["--workers", "8", "--marks", "1", "--buffer", "1"]]


class Machine:
    def __init__(self, hydra):
        self.hydra = hydra
        self.folder = tempfile.mkdtemp(prefix="hydra-refuse-")
        self.library = os.path.join(self.folder, "refuse.so")
        self.seen = os.path.join(self.folder, "seen")
        self.path = os.path.join(self.folder, "source.hc")
        self.input = os.path.join(self.folder, "source.in")
        self.count = os.path.join(self.folder, "count")
        self.failed = 0
        compiler = shutil.which(os.environ.get("CC", "cc"))
        if compiler is None:
            raise SystemExit("refuse: a C compiler is wanted")
        subprocess.run(
            [compiler, "-O1", "-shared", "-fPIC", os.path.join(HERE, "refuse.c"), "-o", self.library, "-ldl", "-lpthread"], check=True)
        with open(self.input, "w") as out:
            out.write("5 -7\n")

    def put(self, source):
        with open(self.path, "w") as out:
            out.write(source)

    def call(self, words, program=None, **refused):
        """A command, with what is refused in its surroundings. Whether something was refused, and what it wrote."""
        surroundings = dict(os.environ, LD_PRELOAD=self.library, REFUSE_SEEN=self.seen)
        surroundings.update({name: str(number) for name, number in refused.items()})
        if os.path.exists(self.seen):
            os.remove(self.seen)
        told = subprocess.run([program or self.hydra, *words], capture_output=True, timeout=120, env=surroundings)
        return os.path.exists(self.seen), (told.returncode, told.stdout, told.stderr)

    def fails(self, what, words, told):
        self.failed += 1
        print("%s: %s: status %d, %r, %r" % (what, " ".join(words), told[0], told[1][:100], told[2][:200]), flush=True)


def commands(machine, source):
    """The commands on a source. Each one's output is the same whatever the schedule."""
    path = machine.path
    behind = ["--input", machine.input] if source == SUM else []
    yield ["check", path]
    yield ["words", path]
    yield ["plain", path, "--stats", *behind]
    for settings in SETTINGS:
        yield ["run", path, *settings, *behind]
    yield ["run", path, "--stats", "--workers", "1", *behind]
    if source not in (HIGHEST, HIGHER):
        yield ["replay", path, "010011010110" * 3, "--workers", "2", *behind]


def refuse_allocations(machine):
    """Each allocation in turn, alone and with all behind it."""
    refused = 0
    for source in [SQUARES, NEEDED, FOUND, HIGHEST, HIGHER, SUM]:
        machine.put(source)
        for words in commands(machine, source):
            was_refused, wanted = machine.call(words)
            if was_refused or wanted[0] not in (0, 2):
                machine.fails("nothing refused", words, wanted)
                continue
            for how in ("REFUSE_ALLOCATION", "REFUSE_FROM"):
                number = 1
                while True:
                    was_refused, told = machine.call(words, **{how: number})
                    if told != wanted and told != (3, b"", b"hydra: memory\n"):
                        machine.fails("allocation %d refused (%s)" % (number, how), words, told)
                    if not was_refused:
                        break
                    number += 1
                    refused += 1
    return refused


def refuse_threads(machine):
    """The n-th thread start and all behind it; what is printed stays."""
    runs = 0
    for source in [SQUARES, NEEDED, FOUND, SUM, PAST]:
        machine.put(source)
        for words in commands(machine, source):
            if words[0] == "run":
                _, wanted = machine.call(words)
                for number in range(1, 9):
                    _, told = machine.call(words, REFUSE_THREAD=number)
                    runs += 1
                    if told != wanted or not told[1].startswith(PRINTED[source]):
                        machine.fails("thread %d refused" % number, words, told)
    return runs


def count_allocations(machine):
    """How often a run takes memory doesn't depend on how many marked loops it comes to."""
    runs = 0
    for workers in ("1", "2", "4", "8"):
        counts = []
        for loops in (1, 2, 9):
            machine.put(LOOPS % loops)
            words = ["run", machine.path, "--workers", workers]
            _, told = machine.call(words, REFUSE_COUNT=machine.count)
            with open(machine.count, "rb") as counted:
                counts.append(int.from_bytes(counted.read(8), sys.byteorder))
            runs += 1
            if told != (0, b"1\n", b"") or counts[-1] != counts[0]:
                machine.fails("%d loops: %d allocations, and %d with one" % (loops, counts[-1], counts[0]), words, told)
    return runs


def shut_outputs(machine):
    """A full disk, and a pipe whose reader has gone."""
    runs = 0
    for source in [SQUARES, NEEDED, FOUND, HIGHEST, PAST]:
        machine.put(source)
        lines = list(commands(machine, source)) + [["--help"], ["run", "--help"]]
        for words in lines:
            for what in ("/dev/full", "a pipe without a reader"):
                if what == "/dev/full":
                    out = os.open(what, os.O_WRONLY)
                else:
                    reader, out = os.pipe()
                    os.close(reader)
                told = subprocess.run([machine.hydra, *words], stdout=out, stderr=subprocess.PIPE, timeout=120)
                os.close(out)
                runs += 1
                if (told.returncode, told.stderr) != (4, b"hydra: write failed\n"):
                    machine.fails("standard output is " + what, words, (told.returncode, b"", told.stderr))
    return runs


def main():
    parser = argparse.ArgumentParser(description=__doc__, formatter_class=argparse.RawDescriptionHelpFormatter)
    parser.add_argument("--hydra", default=os.path.join(HERE, "..", "crates", "hydra", "out", "hydra"), help="the built program")
    words = parser.parse_args()
    if not os.access(words.hydra, os.X_OK):
        raise SystemExit("refuse: %s is no program: 'cd crates/hydra && rt run -- --help' builds it" % words.hydra)
    machine = Machine(words.hydra)
    allocations = refuse_allocations(machine)
    threads = refuse_threads(machine)
    counts = count_allocations(machine)
    outputs = shut_outputs(machine)
    shutil.rmtree(machine.folder)
    print("%d runs with allocations refused, %d with threads refused, %d counted, %d with an output that is shut: %d failed" % (
        allocations, threads, counts, outputs, machine.failed))
    sys.exit(1 if machine.failed else 0)


if __name__ == "__main__":
    main()
