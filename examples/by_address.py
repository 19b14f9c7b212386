#!/usr/bin/env python3
"""by_address.py WORDS .. prints what `peano run WORDS ..` prints, and ends with the same status.

It follows the definitions by the plainest means: vertices and cells are found in dictionaries by level and position, first
and last touches by counting loads. It has no stack, no stream and no face, shares nothing with the program, and is slow.
The expected output of every example is made by it, and never by the program.

It knows no want of memory and no failed output. A TOML document is here what Python's tomllib takes (version 1.0 of TOML),
with whole numbers of 64 bits.
"""

import re
import sys
import tomllib
from collections import Counter
from itertools import product

LEAST, GREATEST = -(2**63), 2**63 - 1
UNREFINED, REFINEMENT_TRIGGERED, REFINING, REFINED, ERASE_TRIGGERED, ERASING = range(6)
OLD = {REFINED, ERASE_TRIGGERED, ERASING}
NEW = {REFINED, ERASE_TRIGGERED, REFINING}
KEPT, BORN, DYING, HANGING = range(4)

# Each event with its sort, in the order of events.
SORTS = {
    "begin_iteration": "plain",
    "end_iteration": "plain",
    "touch_vertex_first_time": "vertex",
    "touch_vertex_last_time": "vertex",
    "create_inner_vertex": "vertex",
    "create_hanging_vertex": "vertex",
    "destroy_vertex": "vertex",
    "destroy_hanging_vertex": "vertex",
    "create_cell": "cell",
    "destroy_cell": "cell",
    "enter_cell": "cell",
    "leave_cell": "cell",
}


class Ends(Exception):
    """The run ends with this status and this last line."""

    def __init__(self, status, line):
        self.status, self.line = status, line


class Fault(Exception):
    """An event overflows or divides by zero."""


class Refused(Exception):
    """A body is refused at an offset, for a cause."""

    def __init__(self, at, cause):
        self.at, self.cause = at, cause


# The language of events. A statement or an expression becomes a function of what an event sees: a dictionary from first
# words to numbers, or to dictionaries from second words to numbers.


def whole(number):
    if not LEAST <= number <= GREATEST:
        raise Fault("overflow")
    return number


def quotient(a, b):
    if b == 0:
        raise Fault("division")
    size = abs(a) // abs(b)
    return whole(size if (a < 0) == (b < 0) else -size)


def remainder(a, b):
    return a - quotient(a, b) * b


OPERATIONS = {
    "||": lambda f, g: lambda seen: int(f(seen) != 0 or g(seen) != 0),
    "&&": lambda f, g: lambda seen: int(f(seen) != 0 and g(seen) != 0),
    "<": lambda f, g: lambda seen: int(f(seen) < g(seen)),
    "<=": lambda f, g: lambda seen: int(f(seen) <= g(seen)),
    ">": lambda f, g: lambda seen: int(f(seen) > g(seen)),
    ">=": lambda f, g: lambda seen: int(f(seen) >= g(seen)),
    "==": lambda f, g: lambda seen: int(f(seen) == g(seen)),
    "!=": lambda f, g: lambda seen: int(f(seen) != g(seen)),
    "+": lambda f, g: lambda seen: whole(f(seen) + g(seen)),
    "-": lambda f, g: lambda seen: whole(f(seen) - g(seen)),
    "*": lambda f, g: lambda seen: whole(f(seen) * g(seen)),
    "/": lambda f, g: lambda seen: quotient(f(seen), g(seen)),
    "%": lambda f, g: lambda seen: remainder(f(seen), g(seen)),
    "min": lambda f, g: lambda seen: min(f(seen), g(seen)),
    "max": lambda f, g: lambda seen: max(f(seen), g(seen)),
}


KEYWORDS = {"if", "else", "refine", "erase", "print", "min", "max", "abs"}
TOKEN = re.compile(r"[a-z][a-z0-9_]*|[0-9]+|&&|\|\||[=!<>]=|[-+*/%=!<>(){},;.]")


def tokens_of(text):
    """Pairs of offset and token, closed by an empty token."""
    found, at = [], 0
    while at < len(text):
        if text[at] in " \t\n\r":
            at += 1
        elif token := TOKEN.match(text, at):
            found.append((at, token[0]))
            at = token.end()
        else:
            raise Refused(at, "character")
    return found + [(at, "")]


class Parser:
    """Reads a text, whose characters stand for bytes; `names` lists each name with its offset and use, in their order."""

    def __init__(self, text):
        self.tokens, self.index, self.nesting, self.names = tokens_of(text), 0, 0, []

    @property
    def at(self):
        return self.tokens[self.index][0]

    @property
    def token(self):
        return self.tokens[self.index][1]

    def take(self, *wanted):
        token = self.token
        if wanted and token not in wanted:
            raise Refused(self.at, "syntax")
        self.index += 1
        return token

    def open(self, sign):
        if self.token == sign and self.nesting == 64:
            raise Refused(self.at, "too-deep")
        self.take(sign)
        self.nesting += 1

    def close(self, sign):
        self.take(sign)
        self.nesting -= 1

    def word(self):
        if not self.token[:1].isalpha() or self.token in KEYWORDS:
            raise Refused(self.at, "syntax")
        return self.take()

    def name(self, use):
        at, first, second = self.at, self.word(), None
        if use != "trigger" and self.token == ".":
            self.take(".")
            second = self.word()
        self.names.append((at, first, second, use))
        return first, second

    def text(self):
        body = self.body()
        self.take("")
        return body

    def body(self):
        statements = []
        while self.token not in ("}", ""):
            statements.append(self.statement())

        def run(seen):
            for statement in statements:
                statement(seen)

        return run

    def block(self):
        self.open("{")
        body = self.body()
        self.close("}")
        return body

    def statement(self):
        if self.token == "if":
            return self.choice()
        keyword = self.take() if self.token in ("refine", "erase", "print") else None
        if keyword == "print":
            statement = self.report()
        elif keyword:
            statement = self.trigger(keyword)
        else:
            statement = self.assignment()
        self.take(";")
        return statement

    def choice(self):
        self.take("if")
        condition, then, other = self.expression(), self.block(), lambda seen: None
        if self.token == "else":
            self.take("else")
            other = self.block()
        return lambda seen: then(seen) if condition(seen) != 0 else other(seen)

    def report(self):
        values = [self.expression()]
        while self.token == ",":
            if len(values) == 8:
                raise Refused(self.at, "too-many")
            self.take(",")
            values.append(self.expression())
        return lambda seen: print("print", *[value(seen) for value in values])

    def trigger(self, keyword):
        vertex, _ = self.name("trigger")
        above = 1 if vertex[0] == "p" else 0
        if keyword == "erase":
            return lambda seen: erase(seen[vertex])
        return lambda seen: refine(seen[vertex], seen["level"] - above, seen["max_level"])

    def assignment(self):
        first, second = self.name("assign")
        self.take("=")
        value = self.expression()

        def assign(seen):
            seen[first][second] = value(seen)

        return assign

    def expression(self):
        return self.chain(("||",), lambda: self.chain(("&&",), self.comparison))

    def comparison(self):
        left = self.sum()
        if self.token not in ("<", "<=", ">", ">=", "==", "!="):
            return left
        return OPERATIONS[self.take()](left, self.sum())

    def sum(self):
        return self.chain(("+", "-"), lambda: self.chain(("*", "/", "%"), self.unary))

    def chain(self, signs, operand):
        left, operands = operand(), 1
        while self.token in signs:
            if operands == 64:
                raise Refused(self.at, "too-many")
            left, operands = OPERATIONS[self.take()](left, operand()), operands + 1
        return left

    def unary(self):
        sign = self.token
        if sign not in ("-", "!"):
            return self.atom()
        self.open(sign)
        operand = self.unary()
        self.nesting -= 1
        if sign == "-":
            return lambda seen: whole(-operand(seen))
        return lambda seen: int(operand(seen) == 0)

    def atom(self):
        if self.token[:1].isdigit():
            return self.number()
        if self.token == "(":
            return self.values(1)[0]
        if self.token in ("min", "max"):
            return OPERATIONS[self.take()](*self.values(2))
        if self.token == "abs":
            self.take("abs")
            (operand,) = self.values(1)
            return lambda seen: whole(abs(operand(seen)))
        first, second = self.name("read")
        if second is None:
            return lambda seen: seen[first]
        return lambda seen: seen[first][second]

    def number(self):
        digits = self.token.lstrip("0") or "0"
        if len(digits) > 19 or int(digits) > GREATEST:
            raise Refused(self.at, "literal")
        self.take()
        return lambda seen: int(digits)

    def values(self, count):
        self.open("(")
        found = [self.expression()]
        while len(found) < count:
            self.take(",")
            found.append(self.expression())
        self.close(")")
        return found


# First words by what they speak of: the sorts of events that see them, and the kind of their fields.
FIRST_WORDS = {
    "t": (("plain", "vertex", "cell"), None),
    "global": (("plain", "vertex", "cell"), "global"),
    "level": (("vertex", "cell"), None),
    "x": (("vertex", "cell"), None),
    "v": (("vertex",), "vertex"),
    "vK": (("cell",), "vertex"),
    "pK": (("vertex", "cell"), "vertex"),
    "cell": (("cell",), "cell"),
    "parent": (("vertex", "cell"), "cell"),
}


def check_name(at, first, second, use, sort, dim, fields):
    corner = re.fullmatch(r"([vp])(0|[1-9][0-9]?)", first)
    axis = re.fullmatch(r"x([0-9])", first)
    form = corner[1] + "K" if corner else "x" if axis and int(axis[1]) < dim else first
    if form not in FIRST_WORDS or first in ("x", "vK", "pK") or use == "trigger" and form not in ("v", "vK", "pK"):
        raise Refused(at, "unknown-name")
    sorts, kind = FIRST_WORDS[form]
    if sort not in sorts:
        raise Refused(at, "not-here")
    if corner and int(corner[2]) >= 2**dim:
        raise Refused(at, "corner")
    if use == "trigger":
        return
    fixed = ("state", "kind") if kind == "vertex" else (None,) if kind is None else ()
    if second not in fixed and (kind is None or second not in fields[kind]):
        raise Refused(at, "unknown-name")
    if use == "assign" and second in fixed:
        raise Refused(at, "read-only")


def read_body(text, event, dim, fields):
    parser = Parser(text.encode().decode("latin-1"))
    body = parser.text()
    for name in parser.names:
        check_name(*name, SORTS[event], dim, fields)
    return body


def refine(vertex, level, max_level):
    if vertex["kind"] in (KEPT, BORN) and vertex["state"] == UNREFINED and level < max_level:
        vertex["state"] = REFINEMENT_TRIGGERED


def erase(vertex):
    if vertex["kind"] == KEPT and vertex["state"] == REFINED:
        vertex["state"] = ERASE_TRIGGERED


# Scenarios. The first cause in the order of the questions is the one that is told.


def need(met, cause, key):
    if not met:
        shown = "".join(chr(b) if re.match(rb"[A-Za-z0-9_.-]", bytes([b])) else "?" for b in key.encode()[:64])
        raise Ends(3, f"fault scenario {cause} {shown}")


def need_keys(table, known, inside=""):
    unknown = sorted(set(table) - set(known))
    need(not unknown, "unknown-key", inside + "".join(unknown[:1]))


def is_texts(value):
    return isinstance(value, list) and all(isinstance(text, str) for text in value)


def fits_64_bits(value):
    if isinstance(value, (dict, list)):
        return all(map(fits_64_bits, value.values() if isinstance(value, dict) else value))
    return not isinstance(value, int) or LEAST <= value <= GREATEST


def read_number(document, key, least, greatest, default=None):
    need(key in document or default is not None, "missing", key)
    number = document.get(key, default)
    need(type(number) is int, "shape", key)
    need(least <= number <= greatest, "range", key)
    return number


def read_names(value, key):
    need(is_texts(value), "shape", key)
    need(len(value) <= 8, "range", key)
    for name in value:
        need(re.fullmatch(r"[a-z][a-z0-9_]{0,15}", name) and name not in ("state", "kind"), "name", key)
    need(len(set(value)) == len(value), "name", key)
    return value


class Scenario:
    def __init__(self, data):
        if len(data) > 1048576:
            raise Ends(3, "fault scenario too-long")
        try:
            document = tomllib.loads(data.decode())
        except ValueError:
            raise Ends(3, "fault scenario not-toml")
        if not fits_64_bits(document):
            raise Ends(3, "fault scenario not-toml")
        numbers = ("dim", "traversals", "max_level", "start_level", "max_cells")
        need_keys(document, (*numbers, "trace", "fields", "events"))
        self.dim = read_number(document, "dim", 2, 4)
        self.traversals = read_number(document, "traversals", 1, 1000)
        self.max_level = read_number(document, "max_level", 1, 20, 20)
        self.start_level = read_number(document, "start_level", 1, self.max_level, 1)
        self.max_cells = read_number(document, "max_cells", 81, 4194304, 4194304)
        self.trace = document.get("trace", [])
        need(is_texts(self.trace), "shape", "trace")
        need(set(self.trace) <= set(SORTS) and len(set(self.trace)) == len(self.trace), "name", "trace")
        self.read_fields(document.get("fields", {}))
        self.read_events(document.get("events", {}))

    def read_fields(self, table):
        need(isinstance(table, dict), "shape", "fields")
        need_keys(table, ("vertex", "cell", "global"), "fields.")
        self.fields = {kind: read_names(table.get(kind, []), "fields." + kind) for kind in ("vertex", "cell", "global")}

    def read_events(self, table):
        need(isinstance(table, dict), "shape", "events")
        need_keys(table, SORTS, "events.")
        self.bodies = {}
        for event in SORTS:
            if event in table:
                need(isinstance(table[event], str), "shape", "events." + event)
                try:
                    self.bodies[event] = read_body(table[event], event, self.dim, self.fields)
                except Refused as refused:
                    raise Ends(3, f"fault scenario body {event} {refused.at} {refused.cause}")

    def zeros(self, kind):
        return dict.fromkeys(self.fields[kind], 0)

    def fresh_vertex(self, kind, state):
        return {"state": state, "kind": kind, **self.zeros("vertex")}


# The grid and its walk. A place is a level and a position.


def kind_of(old, new):
    return KEPT if old and new else BORN if new else DYING if old else HANGING


def corner_of(position, k):
    return tuple(p + (k >> i & 1) for i, p in enumerate(position))


def children_of(position, forward):
    """The positions of a cell's children in the order of the curve."""
    found = []
    for digits in product(range(3), repeat=len(position)):
        child = []
        for i, digit in enumerate(digits):
            turned = sum(position) - position[i] + sum(digits[:i])
            child.append(3 * position[i] + (digit if turned % 2 == 0 else 2 - digit))
        found.append(tuple(child))
    return found if forward else found[::-1]


def first_touch(state, kind):
    if kind == DYING:
        return ERASING if state in (REFINED, ERASE_TRIGGERED) else UNREFINED
    return {REFINEMENT_TRIGGERED: REFINING, ERASE_TRIGGERED: ERASING}.get(state, state)


def last_touch(state):
    return {REFINING: REFINED, ERASING: UNREFINED}.get(state, state)


class Grid:
    def __init__(self, scenario):
        self.scenario = scenario
        self.vertices, self.cells = {}, {}
        self.root, self.globals = scenario.zeros("cell"), scenario.zeros("global")

    def traverse(self, t):
        scenario, self.t = self.scenario, t
        self.loads, self.tally = Counter(), Counter()
        corners = [scenario.fresh_vertex(HANGING, UNREFINED) for _ in range(2**scenario.dim)]
        self.fire("begin_iteration")
        self.walk_children((0, (0,) * scenario.dim), kind_of(t > 1, True), (corners, self.root))
        self.fire("end_iteration")
        way, tally = "forward" if t % 2 == 1 else "inverted", self.tally
        print(
            f"traversal {t} {way} cells {tally['cells']} in {tally[KEPT] + tally[DYING]} out {tally[KEPT] + tally[BORN]}"
            f" created {tally[BORN]} destroyed {tally[DYING]} hanging {tally[HANGING]}"
        )

    def walk_children(self, at, kind, family):
        level, position = at
        for child in children_of(position, self.t % 2 == 1):
            self.walk((level + 1, child), kind, family)

    def walk(self, at, kind, parents):
        """The walk of a cell; `parents` has the corners of its parent, and the parent's fields."""
        level, position = at
        self.tally["cells"] += 1
        if self.tally["cells"] > self.scenario.max_cells:
            raise Ends(4, f"fault cells traversal {self.t} {told(at)}")
        places = [(level, corner_of(position, k)) for k in range(2**self.scenario.dim)]
        corners = [self.load(place, parents) for place in reversed(places)][::-1]
        if kind == BORN:
            self.cells[at] = self.scenario.zeros("cell")
        cell = self.cells[at]
        if kind == BORN:
            self.fire("create_cell", at, cell, corners, parents)
        self.fire("enter_cell", at, cell, corners, parents)
        old = any(corner["state"] in OLD for corner in corners)
        new = any(corner["state"] in NEW for corner in corners)
        if old or new:
            self.walk_children(at, kind_of(old, new), (corners, cell))
        self.fire("leave_cell", at, cell, corners, parents)
        if kind == DYING:
            self.fire("destroy_cell", at, cell, corners, parents)
            del self.cells[at]
        for place, corner in zip(places, corners):
            self.store(place, corner, parents)

    def kind_at(self, at):
        level, position = at
        if level == 1:
            inside = all(0 < x < 3 for x in position)
            return kind_of(inside and self.t > 1, inside)
        carriers = [(level - 1, carrier) for carrier in product(*({x // 3, -(-x // 3)} for x in position))]
        states = {self.vertices[carrier]["state"] for carrier in carriers if carrier in self.vertices}
        return kind_of(states & OLD, states & NEW)

    def load(self, at, parents):
        kind = self.kind_at(at)
        if kind == HANGING:
            vertex = self.scenario.fresh_vertex(HANGING, UNREFINED)
            self.tally[HANGING] += 1
            self.fire("create_hanging_vertex", at, vertex, None, parents)
            return vertex
        self.loads[at] += 1
        if self.loads[at] > 1:
            return self.vertices[at]
        self.tally[kind] += 1
        if kind == BORN:
            starts = REFINING if self.t == 1 and at[0] < self.scenario.start_level else UNREFINED
            vertex = self.vertices[at] = self.scenario.fresh_vertex(BORN, starts)
            self.fire("create_inner_vertex", at, vertex, None, parents)
        else:
            vertex = self.vertices[at]
            vertex["kind"], vertex["state"] = kind, first_touch(vertex["state"], kind)
        self.fire("touch_vertex_first_time", at, vertex, None, parents)
        return vertex

    def store(self, at, vertex, parents):
        if vertex["kind"] == HANGING:
            self.fire("destroy_hanging_vertex", at, vertex, None, parents)
        elif self.loads[at] == 2**self.scenario.dim:
            self.fire("touch_vertex_last_time", at, vertex, None, parents)
            if vertex["kind"] == DYING:
                self.fire("destroy_vertex", at, vertex, None, parents)
                del self.vertices[at]
            else:
                vertex["state"] = last_touch(vertex["state"])

    def fire(self, event, at=None, own=None, corners=None, parents=None):
        """Writes the event's trace line, and runs its body; `own` is the event's vertex, or its cell."""
        where = self.t if at is None else told(at)
        if event in self.scenario.trace:
            print(event, where)
        if event in self.scenario.bodies:
            try:
                self.scenario.bodies[event](self.seen(at, own, corners, parents))
            except Fault as fault:
                raise Ends(4, f"fault {fault} traversal {self.t} {event}" + ("" if at is None else f" {where}"))

    def seen(self, at, own, corners, parents):
        seen = {"t": self.t, "global": self.globals, "max_level": self.scenario.max_level}
        if at is not None:
            seen["level"], seen["parent"] = at[0], parents[1]
            seen.update((f"x{i}", x) for i, x in enumerate(at[1]))
            seen.update((f"p{k}", corner) for k, corner in enumerate(parents[0]))
            seen["v" if corners is None else "cell"] = own
            seen.update((f"v{k}", corner) for k, corner in enumerate(corners or ()))
        return seen


def told(at):
    return " ".join(map(str, (at[0], *at[1])))


def scenario_named(words):
    """The one word besides the first `--`, which ends the options. There are no options, and no name begins as one does."""
    names = list(words)
    if "--" in names:
        names.remove("--")
    if len(names) != 1 or names[0] == "" or names[0].startswith("-"):
        raise Ends(2, "fault words")
    return names[0]


def run(words):
    try:
        with open(scenario_named(words), "rb") as file:
            data = file.read()
    except OSError:
        raise Ends(6, "fault shelf scenario")
    scenario = Scenario(data)
    grid = Grid(scenario)
    for t in range(1, scenario.traversals + 1):
        grid.traverse(t)
    raise Ends(0, "done")


if __name__ == "__main__":
    sys.setrecursionlimit(100000)
    try:
        run(sys.argv[1:])
    except Ends as end:
        print(end.line)
        sys.exit(end.status)
