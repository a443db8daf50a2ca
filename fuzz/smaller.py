"""Failing programs, made small: as long as a smaller one fails in the same way it is taken instead."""

import copy
import itertools
import time

from programs import Node


def statements_of(node, found):
    """The lists of statements in a program's tree."""
    if isinstance(node, Node):
        if node.kind == "block":
            found.append(node.parts[0])
        for part in node.parts:
            statements_of(part, found)
    elif isinstance(node, list):
        for part in node:
            statements_of(part, found)
    return found


def places_of(holder, found):
    """Where nodes stand in a tree: a list and an index in it."""
    for i, part in enumerate(holder):
        if isinstance(part, Node):
            found.append((holder, i))
            places_of(part.parts, found)
        elif isinstance(part, list):
            places_of(part, found)
    return found


EXPRESSIONS = {"number", "name", "element", "call", "unary", "pair", "binary"}


def in_place_of(node):
    """Smaller nodes that can stand where this one does."""
    if node.kind in EXPRESSIONS:
        smaller = [Node("number", 0), Node("number", 1)] if node.kind != "number" else []
        return smaller + [part for part in node.parts if isinstance(part, Node)]
    inner = [part for part in node.parts if isinstance(part, Node) and part.kind not in EXPRESSIONS]
    return [Node("empty")] + inner if node.kind != "empty" else []


def bodies(program):
    return [function.body for function in program.functions]


def cuts(program):
    """What can be taken out of a program, the large parts first: functions, globals, statements, and nodes for smaller ones."""
    for i in range(len(program.functions) - 1):
        yield ("function", i)
    for i in range(len(program.globals)):
        yield ("global", i)
    for at, statements in enumerate(statements_of(bodies(program), [])):
        length = len(statements)
        for size in sorted({length, length // 2, 1} - {0}, reverse=True):
            for begin in range(0, length, size):
                yield ("statements", at, begin, size)
    for at, (holder, i) in enumerate(places_of(bodies(program), [])):
        for choice in range(len(in_place_of(holder[i]))):
            yield ("node", at, choice)


def cut_out(program, cut):
    """A copy of the program without this."""
    smaller = copy.deepcopy(program)
    kind, at, *more = cut
    if kind == "function":
        del smaller.functions[at]
    elif kind == "global":
        del smaller.globals[at]
    elif kind == "statements":
        begin, size = more
        del statements_of(bodies(smaller), [])[at][begin:begin + size]
    else:
        holder, i = places_of(bodies(smaller), [])[at]
        holder[i] = in_place_of(holder[i])[more[0]]
    return smaller


def smaller_program(program, fails, seconds=300):
    """The smallest program that is found within some minutes and still fails."""
    end = time.time() + seconds
    goes_on = True
    while goes_on:
        goes_on, tried = False, 0
        while time.time() < end:
            cut = next(itertools.islice(cuts(program), tried, None), None)
            if cut is None:
                break
            smaller = cut_out(program, cut)
            if fails(smaller):
                program, goes_on = smaller, True
            else:
                tried += 1
        goes_on = goes_on and time.time() < end
    return program


def smaller_source(source, fails, seconds=300):
    """The same for bytes: parts of them are taken out, the large ones first."""
    end = time.time() + seconds
    size = max(1, len(source) // 2)
    while True:
        at, changed = 0, False
        while at < len(source):
            if time.time() > end:
                return source
            shorter = source[:at] + source[at + size:]
            if fails(shorter):
                source, changed = shorter, True
            else:
                at += size
        if size == 1 and not changed:
            return source
        size = max(1, size // 2)
