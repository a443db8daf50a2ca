#!/usr/bin/env python3
"""Whether the pictures of `hydra timeline` are well-formed XML.

    fuzz/timelines.py                     200 random schedules of the programs of examples/
    fuzz/timelines.py --count 1000        so many
    fuzz/timelines.py --hydra PROGRAM     another program than crates/hydra/out/hydra

The last line has the figures; the exit status is 1 where something failed.
"""

import argparse
import glob
import os
import random
import subprocess
import sys
import xml.etree.ElementTree as ElementTree

ROOT = os.path.dirname(os.path.dirname(os.path.abspath(__file__)))

SVG = "{http://www.w3.org/2000/svg}svg"


def picture(hydra, path):
    workers = random.randint(1, 8)
    schedule = "".join(str(random.randrange(workers)) for _ in range(random.randint(0, 60)))
    room = ["--marks", str(random.choice((1, 2, 512))), "--buffer", str(random.choice((1, 2, 64)))]
    words = [hydra, "timeline", path, schedule, "--workers", str(workers), *room]
    if os.path.exists(path[:-3] + ".in"):
        words += ["--input", path[:-3] + ".in"]
    done = subprocess.run(words, stdout=subprocess.PIPE, stderr=subprocess.PIPE, timeout=600)
    return words, done


def main():
    parser = argparse.ArgumentParser(description=__doc__, formatter_class=argparse.RawDescriptionHelpFormatter)
    parser.add_argument("--count", type=int, default=200)
    parser.add_argument("--seed", type=int, default=1)
    parser.add_argument("--hydra", default=os.path.join(ROOT, "crates/hydra/out/hydra"))
    asked = parser.parse_args()
    random.seed(asked.seed)
    files = sorted(glob.glob(os.path.join(ROOT, "examples", "*.hc")))
    failed = 0
    for _ in range(asked.count):
        words, done = picture(asked.hydra, random.choice(files))
        try:
            if done.returncode != 0:
                raise ValueError(done.stderr.decode("latin-1").strip())
            root = ElementTree.fromstring(done.stdout)
            if root.tag != SVG:
                raise ValueError(f"its root is {root.tag}")
        except (ValueError, ElementTree.ParseError) as why:
            failed += 1
            print(" ".join(words[1:]), why, flush=True)
    print(f"{asked.count} pictures, {failed} failed")
    return 1 if failed else 0


if __name__ == "__main__":
    sys.exit(main())
