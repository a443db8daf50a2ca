"""What the program `hydra` answers about a source, and where its answers don't fit together."""

import os
import re
import subprocess

STEPS = 200_000

SECONDS = 120

REFUSED = re.compile(rb"hydra: refused (\d+)( at \d+:\d+)?\n\Z")

OF_SOURCES = {1, 2, 3, 4, 5, 10, 11, 20, 21, 22, 23, 24, 25, 26}

FAULT = re.compile(rb"hydra: fault [1-4] at \d+:\d+\n\Z")

COUNTS = [b"regions", b"turns", b"repeats", b"violations", b"restarts", b"holds", b"abandons", b"discarded"]

STATE = re.compile(rb"state (running|left|returned -?\d+|fault [1-4] at \d+:\d+)\nturns (\d+)\nrepeats \d+\n(?:[a-z]+ \d+\n)+\Z")


class Disagreement(Exception):
    """Two answers that don't fit together, or one that can't be. `kind` names it in a few words."""

    def __init__(self, kind, more=""):
        super().__init__(kind)
        self.kind = kind
        self.more = more


class Told:
    def __init__(self, status, out, err):
        self.status = status
        self.out = out
        self.err = err


class Hydra:
    """The built program, run on one source that stands in a file."""

    def __init__(self, program, folder):
        self.program = program
        self.path = os.path.join(folder, "source.hc")
        self.input = os.path.join(folder, "source.in")
        self.numbers = []
        self.calls = 0

    def put(self, source, numbers=()):
        with open(self.path, "wb") as out:
            out.write(source)
        self.numbers = list(numbers)
        if self.numbers:
            with open(self.input, "w") as out:
                out.write(" ".join(str(number) for number in self.numbers))

    def call(self, command, *words):
        """One command on the source. It must end by itself, by one of the statuses that a source and its run can have."""
        line = [self.program, command, self.path, *[str(word) for word in words]]
        if self.numbers and command in ("run", "plain", "replay"):
            line += ["--input", self.input]
        self.calls += 1
        try:
            told = subprocess.run(line, capture_output=True, timeout=SECONDS)
        except subprocess.TimeoutExpired:
            raise Disagreement("%s hangs" % command, " ".join(line))
        if told.returncode not in (0, 1, 2):
            raise Disagreement("%s ends by status %d" % (command, told.returncode), told.stderr.decode("utf-8", "replace"))
        return Told(told.returncode, told.stdout, told.stderr)


def report_of(out, command):
    """A printed text and its report: the text, the end, and the numbers by their names."""
    lines = out.split(b"\n")
    at = max((i for i, line in enumerate(lines) if re.search(rb"end (normal -?\d+|fault [1-4] at \d+:\d+)\Z", line)), default=None)
    if at is None or lines[-1] != b"":
        raise Disagreement("%s writes no report" % command)
    found = re.search(rb"end (normal -?\d+|fault [1-4] at \d+:\d+)\Z", lines[at])
    text = b"\n".join(lines[:at] + [lines[at][:found.start()]])
    numbers = {}
    for line in lines[at + 1:-1]:
        name, number = line.split(b" ")
        numbers[name] = int(number)
    if [name for name in numbers if name in COUNTS] != COUNTS:
        raise Disagreement("%s writes another report" % command)
    return text, found.group(1).decode(), numbers


class Finish:
    """How a run ended."""

    def __init__(self, told, command):
        self.text, self.end, self.counts = report_of(told.out, command)
        self.told = told
        if self.end.startswith("normal"):
            fits = told.status == 0 and told.err == b""
        else:
            fits = told.status == 1 and told.err == b"hydra: %s\n" % self.end.encode()
        if not fits:
            raise Disagreement("%s tells another end than its report" % command, told.err.decode("utf-8", "replace"))


def is_not_over(told):
    return told.status == 2 and told.out == b"" and told.err == b"hydra: not ended after %d steps\n" % STEPS


def settings(rng):
    """Random workers and room for marks and writes, as words of a command line."""
    rooms = [1, 1, 2, 3, 4, 8, 64, 512, 4096]
    return ["--workers", rng.choice([1, 2, 2, 3, 4, 4, 5, 8]), "--marks", rng.choice(rooms), "--buffer", rng.choice(rooms)]


def compare_runs(hydra, plain, rng, times):
    """`run` comes to what `plain` came to, whatever the settings."""
    for _ in range(times):
        words = settings(rng)
        told = hydra.call("run", "--stats", *words)
        more = " ".join(str(word) for word in words)
        if told.status == 2:
            raise Disagreement("run refuses what plain ran", more)
        run = Finish(told, "run")
        if run.text != plain.text:
            raise Disagreement("run prints another text than plain", more)
        if run.end != plain.end:
            raise Disagreement("run ends otherwise than plain", more)
        for name in (b"regions", b"turns"):
            if run.counts[name] != plain.counts[name]:
                raise Disagreement("run counts other %s than plain" % name.decode(), more)
        if words[1] == 1 and run.counts[b"violations"] + run.counts[b"repeats"] + run.counts[b"abandons"] != 0:
            raise Disagreement("one worker repeats itself", more)


class Trace:
    def __init__(self, told):
        if told.status != 0 or told.err != b"":
            raise Disagreement("replay is refused", told.err.decode("utf-8", "replace"))
        found = STATE.search(told.out)
        if found is None:
            raise Disagreement("replay writes no trace")
        self.text = told.out[:found.start()]
        self.state = found.group(1)
        self.turns = int(found.group(2))


def schedule(rng, workers, length):
    """A random schedule: single steps, or runs of one worker."""
    steps = []
    runs = rng.choice([1, 1, 3, 10])
    while len(steps) < length:
        steps += [str(rng.randrange(workers))] * rng.randint(1, runs)
    if rng.random() < 0.5:
        steps += [str(i % workers) for i in range(length)]
    return "".join(steps)


def compare_replays(hydra, regions, rng, times):
    """What any schedule has settled is on the way of one worker alone; and where both have ended it is the same."""
    for _ in range(times):
        entry = rng.randint(1, min(regions, 50))
        workers = rng.choice([2, 3, 4, 8])
        rooms = settings(rng)[2:]
        words = [*rooms, "--entry", entry, "--steps", STEPS]
        alone = Trace(hydra.call("replay", "0" * rng.choice([50, 400, 2000]), "--workers", 1, *words))
        steps = schedule(rng, workers, rng.choice([5, 20, 60, 200, 600]))
        trace = Trace(hydra.call("replay", steps, "--workers", workers, *words))
        more = "%s --workers %d %s" % (steps, workers, " ".join(str(word) for word in words))
        if not (trace.text.startswith(alone.text) or alone.text.startswith(trace.text)):
            raise Disagreement("replay settles a text that one worker doesn't print", more)
        if alone.state != b"running":
            if trace.turns > alone.turns or not alone.text.startswith(trace.text):
                raise Disagreement("replay settles more than one worker", more)
            if trace.state != b"running" and (trace.state, trace.turns, trace.text) != (alone.state, alone.turns, alone.text):
                raise Disagreement("replay ends otherwise than one worker", more)
        elif trace.state != b"running" and (trace.turns < alone.turns or not trace.text.startswith(alone.text)):
            raise Disagreement("replay ends before one worker", more)


def compare_refusals(hydra, refused, rng):
    """Each command refuses the source, by the same line."""
    for command, *words in [("plain",), ("words",), ("run", *settings(rng)), ("replay", "0101")]:
        told = hydra.call(command, *words)
        if (told.status, told.out, told.err) != (2, b"", refused.err):
            raise Disagreement("%s refuses otherwise than check" % command, refused.err.decode() + told.err.decode("utf-8", "replace"))


def answers_of(hydra, rng, runs=1, replays=1):
    """All of a source's answers. None where it is refused, `more` where it isn't over within the steps, else its finish."""
    checked = hydra.call("check")
    if checked.status == 2:
        found = REFUSED.fullmatch(checked.err)
        if found is None or int(found.group(1)) not in OF_SOURCES or checked.out != b"":
            raise Disagreement("check refuses by no number of a source", checked.err.decode("utf-8", "replace"))
        compare_refusals(hydra, checked, rng)
        return None
    if (checked.status, checked.out, checked.err) != (0, b"ok\n", b""):
        raise Disagreement("check neither accepts nor refuses", checked.err.decode("utf-8", "replace"))
    if rng.random() < 0.1 and hydra.call("words").status != 0:
        raise Disagreement("words refuses what check accepts")
    told = hydra.call("plain", "--stats", "--steps", STEPS)
    if is_not_over(told):
        found = hydra.call("replay", "", "--steps", STEPS)
        if found.status == 0:
            compare_replays(hydra, 1, rng, replays)
        return "more"
    if told.status == 2:
        raise Disagreement("plain refuses what check accepts", told.err.decode("utf-8", "replace"))
    plain = Finish(told, "plain")
    compare_runs(hydra, plain, rng, runs)
    if plain.counts[b"regions"] > 0:
        compare_replays(hydra, plain.counts[b"regions"], rng, replays)
    return plain
