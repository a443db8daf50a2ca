#!/usr/bin/env python3
"""Prints the instructions of a function that are done most, with how often each is, in the order of their places.

    hot.py CALLGRIND PROGRAM FUNCTION LEAST     of the output of `valgrind --tool=callgrind --dump-instr=yes`, those of the functions whose
                                                names have FUNCTION in them, done LEAST times at least
"""
import re
import subprocess
import sys


def counts(path, wanted):
    names, found, place, inside, is_call = {}, {}, 0, False, False
    for line in open(path, encoding="utf-8"):
        line = line.rstrip("\n")
        if named := re.match(r"(c?fn)=\((\d+)\)(?: (.*))?$", line):
            kind, number, name = named.groups()
            names.setdefault(number, name or "")
            if kind == "fn":
                inside = wanted in names[number]
        elif line.startswith("calls="):
            is_call = True
        elif cost := re.match(r"(0x[0-9a-f]+|\+\d+|-\d+|\*) \S+ (\d+)$", line):
            step, count = cost.groups()
            if step.startswith("0x"):
                place = int(step, 16)
            elif step != "*":
                place += int(step)
            if inside and not is_call:
                found[place] = found.get(place, 0) + int(count)
            is_call = False
    return found


def main():
    path, program, wanted, least = sys.argv[1:]
    hot = {place: count for place, count in counts(path, wanted).items() if count >= int(least)}
    if not hot:
        sys.exit("none is done so often")
    places = [f"--start-address={min(hot)}", f"--stop-address={max(hot) + 16}"]
    listing = subprocess.run(["objdump", "-d", "--no-show-raw-insn", *places, program], capture_output=True, text=True, check=True).stdout
    between = False
    for place, text in re.findall(r"^\s*([0-9a-f]+):\t(.*)$", listing, re.M):
        count = hot.get(int(place, 16))
        if count is None:
            between = True
            continue
        if between:
            print("...")
        between = False
        print(f"{count:12} {place} {text}")


main()
