#!/usr/bin/env python3
"""Writes the crates of the plain machine as one Rust program: the same bodies, without contracts.

    to_rust.py CRATES FOLDER     CRATES is the folder of the crates, FOLDER is made anew

What it takes away are clauses, ghost items and views; what it puts in place of the kit's library is `kit.rs`. Nothing is proved of
the program, and its checks of bounds are those of rustc: it is for trying a body in seconds that takes minutes to prove.
"""
import os
import re
import shutil
import sys

CRATES = ["hx_tree", "hx_code", "hx_cells", "hx_outside", "hx_loops", "hx_instruction", "hx_table", "hx_single", "hx_exec", "hx_word"]


def without(lines, begins):
    """The lines without those blocks in braces whose first line begins so."""
    depth = 0
    inside = False
    for line in lines:
        if not inside and begins.match(line):
            inside = True
        if not inside:
            yield line
            continue
        depth += line.count("{") - line.count("}")
        inside = depth > 0
        # the last clause of a function that has no body ends its declaration
        if not inside and line.rstrip().endswith("};"):
            yield ";"


def without_ghosts(lines):
    """The lines without ghost items, each of which ends by a semicolon."""
    inside = False
    for line in lines:
        inside = inside or line.lstrip().startswith("ghost ")
        if not inside:
            yield line
        elif line.rstrip().endswith(";"):
            inside = False


def in_rust(text, crate):
    """The text of a file of a crate, as that of a module of the program."""
    lines = text.split("\n")
    lines = without(lines, re.compile(r"\s*impl(<[^>]*>)? Model for |impl fmt::Display"))
    lines = without_ghosts(lines)
    lines = without(lines, re.compile(r"\s*(requires|ensures)(\s+\w+)?\s*\{"))
    text = "\n".join(lines)
    text = re.sub(r"#!\[tactic.*\]\n", "", text)
    text = re.sub(r"#\[(tactic|cycle)\([^\]]*\]\n", "", text)
    text = re.sub(r"#\[derive\(Drop\)\]\n\s*", "", text)
    text = re.sub(r"(?<![\w:])crate::", f"crate::{crate}::", text)
    text = re.sub(r"(?<![\w:])(hx_\w+)::", r"crate::\1::", text)
    text = text.replace("use itoa::", "use crate::kit::").replace("use std::marker::Model;\n", "")
    text = re.sub(r"use std::alloc::", "use crate::kit::", text)
    text = text.replace(".collect(alloc)", ".collect_in(alloc)")
    text = re.sub(r"vec!\[in alloc; (\w+); ([^\]]*)\]\?", r"crate::kit::filled(\1, \2)", text)
    if re.search(r"\bVec\b|collect_in", text):
        head = re.match(r"(?://.*\n|\s*\n)*", text).end()
        text = text[:head] + "use crate::kit::{CollectIn, Vec};\n" + text[head:]
    return text


def main():
    crates, folder = sys.argv[1:]
    shutil.rmtree(folder, ignore_errors=True)
    for crate in CRATES:
        source = os.path.join(crates, crate, "src")
        for at, _, names in os.walk(source):
            for name in sorted(names):
                path = os.path.join(at, name)
                to = os.path.join(folder, crate, os.path.relpath(path, source))
                to = to.replace("lib.rt", "mod.rs") if name == "lib.rt" else to[:-2] + "rs"
                os.makedirs(os.path.dirname(to), exist_ok=True)
                with open(path, encoding="utf-8") as it, open(to, "w", encoding="utf-8") as out:
                    out.write(in_rust(it.read(), crate))
    here = os.path.dirname(os.path.abspath(__file__))
    for name in ("main.rs", "kit.rs", "listing.rs"):
        shutil.copy(os.path.join(here, name), folder)


main()
