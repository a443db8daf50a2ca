#!/usr/bin/env python3
"""Writes a Rattle program that runs codes by the plain machine: those of listings of `hydra words`, each under its file's name.

    to_rattle.py PROGRAM LISTING..     PROGRAM is the source that is written

Globals begin as 0, and there is no input. How many operands a place has, and in which function and region it lies, is told by going
through each function's words from its first one on, and through those that nothing leads to as words of the function before them.
"""
import os
import sys
from collections import namedtuple

OPERATORS = {
    "add": "Add", "sub": "Sub", "mul": "Mul", "div": "Div", "rem": "Rem", "and": "BitAnd", "or": "BitOr", "xor": "BitXor",
    "shl": "ShiftLeft", "shr": "ShiftRight", "lt": "Less", "le": "LessEqual", "gt": "Greater", "ge": "GreaterEqual",
    "eq": "Equal", "ne": "NotEqual",
}
UNARY = {"neg": "Negate", "not": "Not", "inv": "Invert"}
PLAIN = {"dup": "Dup", "drop": "Drop", "ret": "Ret", "turn": "Turn", "leave": "Leave"}
NUMBERED = {"const": "Const", "priv": "Priv", "setpriv": "SetPriv", "glob": "Glob", "setglob": "SetGlob", "jump": "Jump", "jfalse": "JumpFalse", "jtrue": "JumpTrue"}

Listed = namedtuple("Listed", "globals functions regions words")
Function = namedtuple("Function", "name entry parameters privates")
Region = namedtuple("Region", "start exit carried copied induct")


def listed(path):
    """What stands in a listing."""
    found = Listed([0], [], [], [])
    for line in open(path, encoding="utf-8"):
        match line.split():
            case []:
                pass
            case ["globals", count]:
                found.globals[0] = int(count)
            case ["func", name, *numbers]:
                found.functions.append(Function(name, *map(int, numbers)))
            case ["region", start, leave, *rest]:
                found.regions.append(region(int(start), int(leave), rest))
            case [_, *word]:
                found.words.append(word)
    return found


def region(start, leave, rest):
    copied = rest.index("copied")
    induct = rest.index("induct") if "induct" in rest else len(rest)
    carried = [tuple(map(int, pair.split("="))) for pair in rest[1:copied]]
    return Region(start, leave, carried, [int(it) for it in rest[copied + 1 : induct]], [int(it) for it in rest[induct + 1 :]])


def spots(code):
    """Of each place its function, its region or none, and how many operands there are."""
    found = [None] * len(code.words)
    for number, function in enumerate(code.functions):
        walk(code, found, function.entry, (number, None, 0))
    for place in range(1, len(found)):
        if found[place] is None:
            walk(code, found, place, (found[place - 1][0], None, 0))
    return found


def walk(code, found, start, begin):
    ahead = [(start, begin)]
    while ahead:
        place, here = ahead.pop()
        if found[place] is None:
            found[place] = here
            ahead += leads(code, place, here)


def leads(code, place, here):
    """The places that a word leads to, and what is told of them."""
    function, within, height = here
    word, behind = code.words[place], place + 1

    def at(to, more):
        return (to, (function, within, height + more))

    match word:
        case ["const" | "priv" | "glob" | "dup", *_]:
            return [at(behind, 1)]
        case ["setpriv" | "setglob" | "drop" | "print" | "emit", *_]:
            return [at(behind, -1)]
        case ["elem" | "neg" | "not" | "inv", *_]:
            return [at(behind, 0)]
        case ["setelem", *_]:
            return [at(behind, -2)]
        case ["jump", to]:
            return [at(int(to), 0)]
        case ["jfalse" | "jtrue", to]:
            return [at(int(to), -1), at(behind, -1)]
        case ["call", number, *_]:
            return [at(behind, 1 - code.functions[int(number)].parameters)]
        case ["enter", number, to]:
            opened = code.regions[int(number)]
            return [at(int(to), 0), at(opened.exit, 0), (opened.start, (function, int(number), 0))]
        case ["ret" | "turn" | "leave"]:
            return []
    return [at(behind, -1)]


def in_rattle(word):
    match word:
        case ["elem" | "setelem" as name, base, length, *_]:
            return f"Word::{'Elem' if name == 'elem' else 'SetElem'}(Array {{ base: {base}, length: {length} }}, HERE)"
        case ["call", number, *_]:
            return f"Word::Call({number}, HERE)"
        case ["print" | "emit" as name, *_]:
            return f"Word::{name.capitalize()}(HERE)"
        case ["enter", number, to]:
            return f"Word::Enter({number}, {to})"
    name = word[0]
    if name in UNARY:
        return f"Word::Unary(UnaryOp::{UNARY[name]})"
    if name in PLAIN:
        return f"Word::{PLAIN[name]}"
    if name in NUMBERED:
        return f"Word::{NUMBERED[name]}({word[1]})"
    return f"Word::Binary(Operator::{OPERATORS[name]}, HERE)"


def marked(one):
    carried = ", ".join(f"Carried {{ private: {private}, cell: {cell} }}" for private, cell in one.carried)
    induct = f"Some(Induct {{ private: {one.induct[0]}, step: {one.induct[1]} }})" if one.induct else "None"
    return f"    Marked {{ start: {one.start}, exit: {one.exit}, carried: &[{carried}], copied: &{one.copied}, induct: {induct} }},\n"


def statics(name, code):
    lines = ""
    for word, (function, within, height) in zip(code.words, spots(code)):
        lines += f"    ({in_rattle(word)}, {height}, {function}, {'None' if within is None else f'Some({within})'}),\n"
    functions = ", ".join(f"({it.entry}, {it.parameters}, {it.privates})" for it in code.functions)
    return (
        f"static {name}_LINES: [Line; {len(code.words)}] = [\n{lines}];\n"
        f"static {name}_FUNCTIONS: [(u32, u32, u32); {len(code.functions)}] = [{functions}];\n"
        f"static {name}_REGIONS: [Marked; {len(code.regions)}] = [\n{''.join(map(marked, code.regions))}];\n"
    )


def main():
    program, *paths = sys.argv[1:]
    tables = shapes = names = ""
    for number, path in enumerate(paths):
        name = os.path.basename(path).partition(".")[0]
        code = listed(path)
        first = [it.name for it in code.functions].index("main")
        tables += statics(name.upper(), code)
        shapes += f"        {number} => (&{name.upper()}_LINES, &{name.upper()}_FUNCTIONS, &{name.upper()}_REGIONS, {code.globals[0]}, {first}),\n"
        names += f'        "{name}" => {number},\n'
    here = os.path.dirname(os.path.abspath(__file__))
    text = open(f"{here}/frame.txt", encoding="utf-8").read()
    with open(program, "w", encoding="utf-8") as it:
        it.write(text.replace("TABLES\n", tables).replace("SHAPES\n", shapes).replace("NAMES\n", names))


main()
