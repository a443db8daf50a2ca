"""Random programs of the language: trees from a seed, which are accepted and mostly end, and the sources that spell them."""

import random


class Name:
    """A declared name. `words` is the length of an array, and 0 for an int; `uid` tells names of one text apart."""

    def __init__(self, text, uid, words=0, values=None, is_global=False):
        self.text = text
        self.uid = uid
        self.words = words
        self.values = values
        self.is_global = is_global


class Function:
    def __init__(self, name, gives, parameters):
        self.name = name
        self.gives = gives
        self.parameters = parameters
        self.body = None


class Node:
    """A statement or an expression: its kind, its parts, and the place of the token that a fault of it names."""

    __slots__ = ("kind", "parts", "pos")

    def __init__(self, kind, *parts):
        self.kind = kind
        self.parts = list(parts)
        self.pos = (0, 0)


class Program:
    """Globals and functions in source order, `main` the last; what its layout is drawn from; and the input's numbers."""

    def __init__(self, names, functions, layout, numbers):
        self.globals = names
        self.functions = functions
        self.layout = layout
        self.numbers = numbers


LEVELS = {
    "*": 1, "/": 1, "%": 1, "+": 2, "-": 2, "<<": 3, ">>": 3, "<": 4, "<=": 4, ">": 4, ">=": 4,
    "==": 5, "!=": 5, "&": 6, "^": 7, "|": 8, "&&": 9, "||": 10,
}

TEXTS = ["a", "b", "c", "d", "n", "x", "y", "z1", "_t", "Int", "ifs", "at"]

NUMBERS = [0, 1, 2, 3, 4, 5, 7, 8, 10, 31, 32, 33, 255, 65536, 2147483646, 2147483647]


class Maker:
    """Makes one program. `budget` bounds how often the innermost statement of nested loops is done, roughly."""

    def __init__(self, seed):
        self.rng = random.Random(seed)
        self.uid = 0
        self.globals = []
        self.functions = []
        self.scopes = []
        self.kept = set()
        self.function = None
        self.loops = 0
        # names that a loop around steps at the end of its body: no local of the body hides them
        self.awaited_texts = []

    # ---- names

    def new_name(self, text, **how):
        self.uid += 1
        return Name(text, self.uid, **how)

    def fresh_global(self, **how):
        taken = {name.text for name in self.globals} | {f.name.text for f in self.functions}
        choices = [text for text in TEXTS + ["g%d" % i for i in range(20)] if text not in taken]
        name = self.new_name(self.rng.choice(choices), is_global=True, **how)
        self.globals.append(name)
        return name

    def seen(self):
        """The names that are seen here, those of inner scopes first."""
        texts, found = set(), []
        for scope in reversed(self.scopes):
            for name in reversed(scope):
                if name.text not in texts:
                    texts.add(name.text)
                    found.append(name)
        for name in self.globals:
            if name.text not in texts:
                found.append(name)
        return found

    def ints(self):
        return [name for name in self.seen() if name.words == 0]

    def arrays(self):
        return [name for name in self.seen() if name.words > 0]

    def callable(self, gives=None):
        hidden = {name.text for scope in self.scopes for name in scope}
        mine = self.functions.index(self.function) if self.function in self.functions else len(self.functions)
        found = [f for f in self.functions[:mine] if f.name.text not in hidden]
        if self.rng.random() < 0.03 and self.function in self.functions and self.function.name.text not in hidden:
            found.append(self.function)
        return [f for f in found if gives is None or f.gives == gives]

    def declare(self):
        scope = self.scopes[-1]
        taken = {name.text for name in scope} | set(self.awaited_texts)
        text = self.rng.choice([t for t in TEXTS + ["v%d" % i for i in range(60)] if t not in taken])
        return self.new_name(text)

    # ---- expressions

    def number(self):
        if self.rng.random() < 0.8:
            return Node("number", self.rng.choice(NUMBERS[:8]))
        return Node("number", self.rng.choice(NUMBERS))

    def leaf(self):
        names = self.ints()
        if names and self.rng.random() < 0.65:
            return Node("name", self.rng.choice(names))
        return self.number()

    def index(self, array, depth):
        """An index that is mostly in range."""
        roll = self.rng.random()
        inner = self.expression(depth - 1)
        if roll < 0.75:
            mask = 1
            while mask * 2 <= array.words:
                mask *= 2
            return Node("binary", "&", inner, Node("number", mask - 1))
        if roll < 0.96:
            return Node("number", self.rng.randrange(array.words))
        return inner

    def element(self, depth):
        array = self.rng.choice(self.arrays())
        return Node("element", array, self.index(array, depth))

    def call(self, function, depth):
        return Node("call", function, [self.expression(depth - 1) for _ in function.parameters])

    def divided(self, op, depth):
        left = self.expression(depth - 1)
        roll = self.rng.random()
        if roll < 0.5:
            return Node("binary", op, left, Node("number", self.rng.choice([1, 2, 3, 5, 7, 255])))
        if roll < 0.95:
            return Node("binary", op, left, Node("pair", Node("binary", "|", self.expression(depth - 1), Node("number", 1))))
        return Node("binary", op, left, self.expression(depth - 1))

    def expression(self, depth):
        if depth <= 0:
            return self.leaf()
        roll = self.rng.random()
        if roll < 0.3:
            return self.leaf()
        if roll < 0.42 and self.arrays():
            return self.element(depth)
        if roll < 0.50:
            functions = self.callable("int")
            if functions:
                return self.call(self.rng.choice(functions), depth)
        if roll < 0.58:
            return Node("unary", self.rng.choice("-~!"), self.expression(depth - 1))
        if roll < 0.63:
            return Node("pair", self.expression(depth - 1))
        op = self.rng.choice(["+", "+", "-", "*", "/", "%", "<<", ">>", "<", "<=", ">", ">=", "==", "!=", "&", "^", "|", "&&", "||"])
        if op in "/%":
            return self.divided(op, depth)
        return Node("binary", op, self.expression(depth - 1), self.expression(depth - 1))

    # ---- statements

    def place(self):
        names = [name for name in self.ints() if name.uid not in self.kept]
        if self.arrays() and (not names or self.rng.random() < 0.45):
            return self.element(2)
        if names:
            return Node("name", self.rng.choice(names))
        return None

    def assignment(self):
        place = self.place()
        if place is None:
            return Node("empty")
        roll = self.rng.random()
        if roll < 0.5:
            return Node("assign", place, "=", self.expression(3))
        if roll < 0.65:
            return Node("step", place, self.rng.choice(["++", "--"]))
        op = self.rng.choice(["+=", "-=", "*=", "<<=", ">>=", "&=", "^=", "|=", "/=", "%="])
        if op in ("/=", "%="):
            return Node("assign", place, op, Node("number", self.rng.choice([1, 2, 3, 7])) if self.rng.random() < 0.9 else self.expression(2))
        return Node("assign", place, op, self.expression(2))

    def locals(self):
        """One to three locals of the innermost scope."""
        declared = []
        for _ in range(self.rng.choice([1, 1, 1, 2, 3])):
            first = self.expression(2) if self.rng.random() < 0.8 else None
            name = self.declare()
            self.scopes[-1].append(name)
            declared.append((name, first))
        return Node("locals", declared)

    def block(self, depth, budget, behind=()):
        self.scopes.append([])
        parts = []
        for _ in range(self.rng.choice([1, 1, 2, 2, 3, 4])):
            if self.rng.random() < 0.2 and len(self.scopes) < 8 and self.count_locals() < 40:
                parts.append(self.locals())
            parts.append(self.statement(depth, budget))
        self.scopes.pop()
        return Node("block", parts + list(behind))

    def count_locals(self):
        return self.uid - self.first_uid

    def body(self, depth, budget):
        if self.rng.random() < 0.7:
            return self.block(depth, budget)
        return self.statement(depth, budget)

    def branch(self, depth, budget):
        test = self.expression(2)
        otherwise = self.body(depth - 1, budget) if self.rng.random() < 0.5 else None
        return Node("if", test, self.body(depth - 1, budget), otherwise)

    def is_marked(self):
        return self.rng.random() < 0.65

    def counted(self, depth, budget):
        """A `for` with a counter, which the body mostly leaves alone."""
        if self.count_locals() > 50:
            return self.assignment()
        turns = self.rng.randint(0, max(1, min(12, budget)))
        down = self.rng.random() < 0.25
        step = self.rng.choice([1, 1, 1, 2, 3])
        low = self.rng.choice([0, 0, 0, 1, -3, 5])
        high = low + turns * step
        self.scopes.append([])
        begin = Node("number", high if down else low) if (high if down else low) >= 0 else Node("unary", "-", Node("number", -low))
        outer = [name for name in self.ints() if not name.is_global and name.uid not in self.kept]
        if outer and self.rng.random() < 0.3:
            name = self.rng.choice(outer)
            first = Node("assign", Node("name", name), "=", begin)
        else:
            name = self.declare()
            self.scopes[-1].append(name)
            first = Node("locals", [(name, begin)])
        bound = Node("number", low if down else high) if (low if down else high) >= 0 else Node("unary", "-", Node("number", -low))
        test = Node("binary", ">" if down else "<", Node("name", name), bound)
        if step == 1 and self.rng.random() < 0.7:
            then = Node("step", Node("name", name), "--" if down else "++")
        elif self.rng.random() < 0.7:
            then = Node("assign", Node("name", name), "-=" if down else "+=", Node("number", step))
        else:
            then = Node("assign", Node("name", name), "=", Node("binary", "-" if down else "+", Node("name", name), Node("number", step)))
        was_kept = name.uid in self.kept
        if self.rng.random() < 0.93:
            self.kept.add(name.uid)
        self.loops += 1
        body = self.body(depth - 1, budget // max(1, turns))
        self.loops -= 1
        if not was_kept:
            self.kept.discard(name.uid)
        self.scopes.pop()
        return Node("for", self.is_marked(), first, test, then, body)

    def awaited(self, depth, budget):
        """A `while` that steps a name at the end of its body, or a loop that is left by a `break`."""
        names = [name for name in self.ints() if name.uid not in self.kept]
        if not names:
            return self.assignment()
        name = self.rng.choice(names)
        if self.rng.random() < 0.9:
            self.kept.add(name.uid)
        turns = self.rng.randint(1, max(1, min(8, budget)))
        self.loops += 1
        self.awaited_texts.append(name.text)
        step = Node("assign", Node("name", name), "+=", Node("number", self.rng.choice([1, 1, 2])))
        test = Node("binary", "<", Node("name", name), Node("number", turns))
        if self.rng.random() < 0.75:
            loop = Node("while", self.is_marked(), test, self.block(depth - 1, budget // turns, [step]))
        else:
            out = Node("if", Node("unary", "!", Node("pair", test)), Node("break"), None)
            inner = self.block(depth - 1, budget // turns, [step, out])
            if self.rng.random() < 0.5:
                loop = Node("while", self.is_marked(), Node("number", 1), inner)
            else:
                loop = Node("for", self.is_marked(), None, None, None, inner)
        self.awaited_texts.pop()
        self.loops -= 1
        self.kept.discard(name.uid)
        return loop

    def leave(self):
        roll = self.rng.random()
        if self.loops and roll < 0.4:
            return Node("break")
        if self.loops and roll < 0.7:
            return Node("continue")
        if self.function.gives == "void":
            return Node("return", None)
        return Node("return", self.expression(2))

    def statement(self, depth, budget):
        roll = self.rng.random()
        if depth > 0 and roll < 0.14:
            return self.counted(depth, budget)
        if depth > 0 and roll < 0.22:
            return self.awaited(depth, budget)
        if depth > 0 and roll < 0.36:
            return self.branch(depth, budget)
        if roll < 0.40 and self.rng.random() < 0.6:
            return Node("if", self.expression(2), self.leave(), None)
        if roll < 0.55:
            if self.rng.random() < 0.85:
                return Node("print", self.expression(3))
            return Node("emit", self.expression(2))
        if roll < 0.62:
            functions = self.callable()
            if functions:
                return Node("do", self.call(self.rng.choice(functions), 2))
        if roll < 0.64:
            return Node("empty")
        if roll < 0.67:
            return self.block(depth - 1, budget)
        return self.assignment()

    # ---- programs

    def make_function(self, function, budget, shows=False):
        self.function = function
        self.first_uid = self.uid
        self.kept = set()
        self.loops = 0
        self.scopes = [list(function.parameters)]
        parts = []
        for _ in range(self.rng.randint(2, 6)):
            if self.rng.random() < 0.4 and self.count_locals() < 40:
                parts.append(self.locals())
            parts.append(self.statement(3, budget))
        if shows:
            parts += self.shown()
        self.scopes = []
        function.body = Node("block", parts)

    def constant(self):
        value = self.rng.choice(NUMBERS)
        return -value if self.rng.random() < 0.3 else value

    def make_globals(self):
        for _ in range(self.rng.randint(1, 4)):
            self.fresh_global(values=[self.constant()] if self.rng.random() < 0.4 else None)
        for _ in range(self.rng.randint(1, 3)):
            words = self.rng.choice([1, 2, 3, 4, 4, 8, 16, 100])
            count = self.rng.randint(1, words) if self.rng.random() < 0.5 else 0
            self.fresh_global(words=words, values=[self.constant() for _ in range(count)] or None)
        numbers = []
        if self.rng.random() < 0.25:
            words = self.rng.randint(1, 9)
            given = self.rng.randint(0, words)
            self.globals.append(self.new_name("in", words=words, is_global=True))
            numbers = [self.constant() for _ in range(given)]
            if self.rng.random() < 0.7:
                self.globals.append(self.new_name("n_in", is_global=True))
        return numbers

    def shown(self):
        """What prints the globals that are seen at the end of `main`."""
        parts = []
        for name in [name for name in self.seen() if name.is_global]:
            if name.words == 0:
                parts.append(Node("print", Node("name", name)))
            else:
                at = self.new_name("k_")
                test = Node("binary", "<", Node("name", at), Node("number", name.words))
                show = Node("print", Node("element", name, Node("name", at)))
                marked = self.rng.random() < 0.3
                parts.append(Node("for", marked, Node("locals", [(at, Node("number", 0))]), test, Node("step", Node("name", at), "++"), show))
        return parts

    def make(self):
        numbers = self.make_globals()
        for _ in range(self.rng.randint(0, 3)):
            taken = {name.text for name in self.globals} | {f.name.text for f in self.functions}
            text = self.rng.choice([t for t in ["f", "g", "h", "step", "go", "a", "b"] if t not in taken] or ["last_one"])
            parameters, texts = [], list(TEXTS)
            for _ in range(self.rng.randint(0, 3)):
                chosen = self.rng.choice(texts)
                texts.remove(chosen)
                parameters.append(self.new_name(chosen))
            function = Function(self.new_name(text, is_global=True), self.rng.choice(["int", "int", "void"]), parameters)
            self.functions.append(function)
            self.make_function(function, 16)
        main = Function(self.new_name("main", is_global=True), "int", [])
        self.make_function(main, 60, True)
        self.functions.append(main)
        return Program(self.globals, self.functions, self.rng.randrange(1 << 30), numbers)


def program_of(seed):
    """The program of a seed: the same seed gives the same program."""
    return Maker(seed).make()


class Writer:
    """Lays tokens out, and tells where each one begins."""

    def __init__(self, layout):
        self.rng = random.Random(layout)
        self.wide = self.rng.random() < 0.5
        self.text = []
        self.line = 1
        self.col = 1
        self.last = " "

    def raw(self, text):
        self.text.append(text)
        for byte in text:
            if byte == "\n":
                self.line += 1
                self.col = 1
            else:
                self.col += 1
        self.last = text[-1]

    def gap(self, first):
        both_words = (self.last.isalnum() or self.last == "_") and (first.isalnum() or first == "_")
        marks = "+-*/%&|^~!<>="
        if both_words or (self.last in marks and first in marks):
            self.raw(" ")
        if self.wide:
            roll = self.rng.random()
            if roll < 0.1:
                self.raw(self.rng.choice([" ", "\n", "\t", "  ", "\r\n"]))
            elif roll < 0.11 and self.last != "/":
                self.raw(self.rng.choice(["/* c */", "// c\n", "/**/", "/*\n*/"]))

    def put(self, token):
        """Lays a token out. The place where it begins."""
        self.gap(token[0])
        pos = (self.line, self.col)
        self.raw(token)
        return pos


class Spelling:
    """Writes the source of a program, and notes the places of its nodes."""

    def __init__(self, program):
        self.out = Writer(program.layout)
        self.program = program

    def source(self):
        for name in self.program.globals:
            self.global_of(name)
        for function in self.program.functions:
            self.out.put(function.gives)
            self.out.put(function.name.text)
            self.out.put("(")
            for i, parameter in enumerate(function.parameters):
                if i:
                    self.out.put(",")
                self.out.put("int")
                self.out.put(parameter.text)
            self.out.put(")")
            self.statement(function.body)
            if not self.out.wide:
                self.out.raw("\n")
        return "".join(self.out.text)

    def constant(self, value):
        if value < 0:
            self.out.put("-")
        self.out.put(str(abs(value)))

    def global_of(self, name):
        self.out.put("int")
        self.out.put(name.text)
        if name.words:
            self.out.put("[")
            self.out.put(str(name.words))
            self.out.put("]")
        if name.values:
            self.out.put("=")
            if name.words:
                self.out.put("{")
            for i, value in enumerate(name.values):
                if i:
                    self.out.put(",")
                self.constant(value)
            if name.words:
                self.out.put("}")
        self.out.put(";")

    # ---- expressions

    def level(self, node):
        return LEVELS[node.parts[0]] if node.kind == "binary" else 0

    def operand(self, node, limit):
        """The expression, in parentheses where its layer is above the limit."""
        if self.level(node) > limit:
            self.out.put("(")
            self.expression(node)
            self.out.put(")")
        else:
            self.expression(node)

    def expression(self, node):
        kind, parts = node.kind, node.parts
        if kind == "number":
            self.out.put(str(parts[0]))
        elif kind == "name":
            self.out.put(parts[0].text)
        elif kind == "element":
            node.pos = self.out.put(parts[0].text)
            self.out.put("[")
            self.expression(parts[1])
            self.out.put("]")
        elif kind == "call":
            node.pos = self.out.put(parts[0].name.text)
            self.arguments(parts[1])
        elif kind == "unary":
            self.out.put(parts[0])
            self.operand(parts[1], 0)
        elif kind == "pair":
            self.out.put("(")
            self.expression(parts[0])
            self.out.put(")")
        else:
            level = LEVELS[parts[0]]
            self.operand(parts[1], level)
            node.pos = self.out.put(parts[0])
            self.operand(parts[2], level - 1)

    def arguments(self, nodes):
        self.out.put("(")
        for i, node in enumerate(nodes):
            if i:
                self.out.put(",")
            self.expression(node)
        self.out.put(")")

    # ---- statements

    def simple(self, node):
        """An assignment, or locals in a `for`."""
        if node.kind == "locals":
            self.out.put("int")
            for i, (name, first) in enumerate(node.parts[0]):
                if i:
                    self.out.put(",")
                self.out.put(name.text)
                if first is not None:
                    self.out.put("=")
                    self.expression(first)
        elif node.kind == "assign":
            self.expression(node.parts[0])
            node.pos = self.out.put(node.parts[1])
            self.expression(node.parts[2])
        else:
            self.expression(node.parts[0])
            node.pos = self.out.put(node.parts[1])

    def statement(self, node):
        kind, parts = node.kind, node.parts
        if kind == "block":
            self.out.put("{")
            for part in parts[0]:
                self.statement(part)
            self.out.put("}")
        elif kind == "if":
            self.branch(node)
        elif kind == "while":
            self.out.put("pwhile" if parts[0] else "while")
            self.out.put("(")
            self.expression(parts[1])
            self.out.put(")")
            self.statement(parts[2])
        elif kind == "for":
            self.loop(node)
        else:
            if kind in ("locals", "assign", "step"):
                self.simple(node)
            elif kind == "do":
                self.expression(parts[0])
            elif kind in ("print", "emit"):
                node.pos = self.out.put(kind)
                self.arguments([parts[0]])
            elif kind == "return":
                self.out.put("return")
                if parts[0] is not None:
                    self.expression(parts[0])
            elif kind != "empty":
                self.out.put(kind)
            self.out.put(";")

    def branch(self, node):
        test, then, otherwise = node.parts
        self.out.put("if")
        self.out.put("(")
        self.expression(test)
        self.out.put(")")
        if otherwise is not None and takes_else(then):
            self.out.put("{")
            self.statement(then)
            self.out.put("}")
        else:
            self.statement(then)
        if otherwise is not None:
            self.out.put("else")
            self.statement(otherwise)

    def loop(self, node):
        marked, first, test, then, body = node.parts
        self.out.put("pfor" if marked else "for")
        self.out.put("(")
        if first is not None:
            self.simple(first)
        self.out.put(";")
        if test is not None:
            self.expression(test)
        self.out.put(";")
        if then is not None:
            self.simple(then)
        self.out.put(")")
        self.statement(body)


def takes_else(node):
    """Whether an `else` behind this statement would go with an `if` inside it."""
    if node.kind == "if":
        return node.parts[2] is None or takes_else(node.parts[2])
    if node.kind in ("while", "for"):
        return takes_else(node.parts[-1])
    return False


def source_of(program):
    """The source that spells a program. Each node's place is noted in it."""
    return Spelling(program).source()
