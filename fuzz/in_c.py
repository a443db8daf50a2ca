"""Random programs as C: many in one file, each with its guards, so that a C compiler answers for them."""

import os
import subprocess

DRIVER = r"""
#include <stdio.h>
#include <stdlib.h>
#include <unistd.h>

#define LIMIT 1048576
static char text_[LIMIT];
static int length_, depth_, active_;
static long turns_;

static void fault(int kind, int line, int col) {
  fwrite(text_, 1, (size_t)length_, stdout);
  printf("\nfault %d at %d:%d\n%ld", kind, line, col, turns_);
  fflush(stdout);
  _exit(0);
}
static int at(int i, int words, int line, int col) {
  if (i < 0 || i >= words) fault(2, line, col);
  return i;
}
static int quotient(int a, int b, int line, int col) {
  if (b == 0) fault(1, line, col);
  return b == -1 ? -a : a / b;
}
static int rest(int a, int b, int line, int col) {
  if (b == 0) fault(1, line, col);
  return b == -1 ? 0 : a % b;
}
static int up(int a, int b) { return (int)((unsigned)a << (b & 31)); }
static int down(int a, int b) { return a >> (b & 31); }
static void enter(int line, int col) {
  if (depth_ >= 64) fault(3, line, col);
  depth_++;
}
static void print(int v, int line, int col) {
  char digits[16];
  int count = sprintf(digits, "%d\n", v);
  if (length_ + count > LIMIT) fault(4, line, col);
  for (int i = 0; i < count; i++) text_[length_++] = digits[i];
}
static void emit(int v, int line, int col) {
  if (length_ + 1 > LIMIT) fault(4, line, col);
  text_[length_++] = (char)(v & 255);
}
"""

MAIN = r"""
int main(int count, char **words) {
  int end = 0;
  if (count < 2) return 9;
  alarm(60);
  depth_ = 1;
  switch (atoi(words[1])) {
%s
  default: return 9;
  }
  fwrite(text_, 1, (size_t)length_, stdout);
  printf("\nnormal %%d\n%%ld", end, turns_);
  return 0;
}
"""

WRAPPED = {"+": "+", "-": "-", "*": "*", "<": "<", "<=": "<=", ">": ">", ">=": ">=", "==": "==", "!=": "!=", "&": "&", "^": "^", "|": "|"}


class Translation:
    """One program as C functions, whose names begin with a prefix. Places are those that the source's spelling noted."""

    def __init__(self, program, prefix):
        self.program = program
        self.prefix = prefix
        self.fresh = 0

    def new(self):
        self.fresh += 1
        return "t%d_" % self.fresh

    def name(self, name):
        return "%sv%d" % (self.prefix, name.uid)

    def text(self):
        lines = []
        for name in self.program.globals:
            values = list(name.values or [])
            if name.text == "in" and name.words:
                values = self.program.numbers + values[len(self.program.numbers):]
            if name.text == "n_in" and not name.words:
                values = [len(self.program.numbers)]
            shown = ", ".join("(-2147483647-1)" if v == -2147483648 else str(v) for v in values)
            if name.words:
                lines.append("static int %s[%d]%s;" % (self.name(name), name.words, " = {%s}" % shown if values else ""))
            else:
                lines.append("static int %s = %s;" % (self.name(name), shown or "0"))
        for function in self.program.functions:
            lines.append(self.head(function) + ";")
        for function in self.program.functions:
            lines.append(self.head(function) + " {")
            lines.append("int was_active_ = active_;")
            lines.append(self.statement(function.body, function))
            lines.append("active_ = was_active_;")
            if function.gives == "int":
                lines.append("return 0;")
            lines.append("}")
        return "\n".join(lines)

    def head(self, function):
        parameters = ", ".join("int " + self.name(p) for p in function.parameters) or "void"
        return "static %s %s(%s)" % (function.gives, self.name(function.name), parameters)

    # ---- expressions

    def value(self, node):
        kind, parts = node.kind, node.parts
        if kind == "number":
            return str(parts[0])
        if kind == "name":
            return self.name(parts[0])
        if kind == "element":
            return "%s[at(%s, %d, %d, %d)]" % (self.name(parts[0]), self.value(parts[1]), parts[0].words, *node.pos)
        if kind == "call":
            return self.call(node)
        if kind == "unary":
            return "(%s(%s))" % (parts[0], self.value(parts[1]))
        if kind == "pair":
            return "(%s)" % self.value(parts[0])
        op = parts[0]
        if op in ("&&", "||"):
            return "((%s) %s (%s))" % (self.value(parts[1]), op, self.value(parts[2]))
        left, right = self.new(), self.new()
        return "({ int %s = %s; int %s = %s; %s; })" % (
            left, self.value(parts[1]), right, self.value(parts[2]), self.operation(op, left, right, node.pos))

    def operation(self, op, left, right, pos):
        if op == "/":
            return "quotient(%s, %s, %d, %d)" % (left, right, *pos)
        if op == "%":
            return "rest(%s, %s, %d, %d)" % (left, right, *pos)
        if op == "<<":
            return "up(%s, %s)" % (left, right)
        if op == ">>":
            return "down(%s, %s)" % (left, right)
        return "(%s %s %s)" % (left, WRAPPED[op], right)

    def call(self, node):
        function, arguments = node.parts
        names = [self.new() for _ in arguments]
        made = "".join("int %s = %s; " % (n, self.value(a)) for n, a in zip(names, arguments))
        called = "%s(%s)" % (self.name(function.name), ", ".join(names))
        begun = "({ %senter(%d, %d); " % (made, *node.pos)
        if function.gives == "void":
            return begun + "%s; depth_--; })" % called
        given = self.new()
        return begun + "int %s = %s; depth_--; %s; })" % (given, called, given)

    # ---- statements

    def assignment(self, node):
        """An assignment or a step, as statements of C."""
        place = node.parts[0]
        if node.kind == "step":
            op, right = node.parts[1][0], "1"
        else:
            op, right = node.parts[1][:-1], self.value(node.parts[2])
        new, old = self.new(), self.new()
        if place.kind == "name":
            target = self.name(place.parts[0])
            if not op:
                return "%s = %s;" % (target, right)
            return "int %s = %s; int %s = %s; %s = %s;" % (old, target, new, right, target, self.operation(op, old, new, node.pos))
        array, index = place.parts[0], self.new()
        tested = "at(%s, %d, %d, %d);" % (index, array.words, *place.pos)
        target = "%s[%s]" % (self.name(array), index)
        if not op:
            return "int %s = %s; int %s = %s; %s %s = %s;" % (index, self.value(place.parts[1]), new, right, tested, target, new)
        return "int %s = %s; %s int %s = %s; int %s = %s; %s = %s;" % (
            index, self.value(place.parts[1]), tested, old, target, new, right, target, self.operation(op, old, new, node.pos))

    def locals(self, node):
        return " ".join("int %s = %s;" % (self.name(n), "0" if first is None else self.value(first)) for n, first in node.parts[0])

    def statement(self, node, function):
        kind, parts = node.kind, node.parts
        if kind == "block":
            return "{\n%s\n}" % "\n".join(self.statement(part, function) for part in parts[0])
        if kind == "locals":
            return self.locals(node)
        if kind in ("assign", "step"):
            return "{ %s }" % self.assignment(node)
        if kind == "if":
            text = "if (%s) {\n%s\n}" % (self.value(parts[0]), self.statement(parts[1], function))
            return text if parts[2] is None else text + " else {\n%s\n}" % self.statement(parts[2], function)
        if kind == "while":
            return self.loop(parts[0], "", self.value(parts[1]), "", self.statement(parts[2], function))
        if kind == "for":
            marked, first, test, then, body = parts
            begun = "" if first is None else self.locals(first) if first.kind == "locals" else "{ %s }" % self.assignment(first)
            tested = "1" if test is None else self.value(test)
            step = "" if then is None else "{ %s }" % self.assignment(then)
            return self.loop(marked, begun, tested, step, self.statement(body, function))
        if kind in ("print", "emit"):
            value = self.new()
            return "{ int %s = %s; %s(%s, %d, %d); }" % (value, self.value(parts[0]), kind, value, *node.pos)
        if kind == "return":
            value = self.new()
            if parts[0] is None:
                return "{ active_ = was_active_; return; }"
            return "{ int %s = %s; active_ = was_active_; return %s; }" % (value, self.value(parts[0]), value)
        if kind == "do":
            return "(void)%s;" % self.value(parts[0]) if parts[0].parts[0].gives == "int" else "%s;" % self.value(parts[0])
        if kind == "empty":
            return ";"
        return kind + ";"

    def loop(self, marked, begun, test, step, body):
        if not marked:
            return "{ %s\nfor (; %s; ({ %s; })) {\n%s\n} }" % (begun, test, step, body)
        was = self.new()
        count = "if (!%s) turns_++;" % was
        return "{ %s\nint %s = active_; active_ = 1;\nfor (; %s; ({ %s %s })) {\n%s\n}\nactive_ = %s; }" % (
            begun, was, test, step, count, body, was)


class Batch:
    """Programs compiled together. The answer of each is its text, its end and its whole turns."""

    def __init__(self, programs, folder, compiler):
        self.file = os.path.join(folder, "batch")
        cases = []
        with open(self.file + ".c", "w") as out:
            out.write(DRIVER)
            for number, program in enumerate(programs):
                prefix = "p%d_" % number
                translation = Translation(program, prefix)
                out.write(translation.text() + "\n")
                main = translation.name(program.functions[-1].name)
                cases.append("  case %d: end = %s(); break;" % (number, main))
            out.write(MAIN % "\n".join(cases))
        told = subprocess.run(
            [compiler, "-std=gnu11", "-O0", "-fwrapv", "-w", self.file + ".c", "-o", self.file], capture_output=True)
        self.is_built = told.returncode == 0
        self.told = told.stderr.decode("utf-8", "replace")

    def answer(self, number):
        """What a program of the batch comes to: its text, its end as a line of a report has it, and its turns; or None."""
        try:
            told = subprocess.run([self.file, str(number)], capture_output=True, timeout=120)
        except subprocess.TimeoutExpired:
            return None
        if told.returncode != 0:
            return None
        text, end, turns = told.stdout.rsplit(b"\n", 2)
        return text, end.decode(), int(turns)
