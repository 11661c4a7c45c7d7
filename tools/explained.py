#!/usr/bin/env python3
"""Says what `pacman explain` has to answer for a catalogue.

    tools/explained.py [--text] < CATALOGUE

It takes catalogues that the program accepts, and doesn't check that they are such. The answer is computed from what docs/LANGUAGE.md and
docs/COMMANDS.md say, by brute force and with nothing of the program: whether two operations conflict is asked of each pair, and
what depends on what by any number of steps is found by joining pairs until nothing changes. So it is slow on purpose.
"""
import collections
import itertools
import re
import sys

WORDS = set("table proc key int text let read has put set delete abort if else default true false for in".split())
TOKEN = re.compile(r'[ \t\r\n]+|#[^\n]*|([A-Za-z_]\w*|\d+|"(?:[^"\\]|\\.)*"|\.\.|[=!<>]=|&&|\|\||[(){}\[\],;.=+\-*/%!<>])', re.ASCII)
LEVELS = [["||"], ["&&"], ["==", "!=", "<", "<=", ">", ">="], ["+", "-"], ["*", "/", "%"]]
LEVEL = {operator: level for level, operators in enumerate(LEVELS) for operator in operators}
COMPARISON, NOT, ATOM = 2, len(LEVELS), len(LEVELS) + 1
MODIFIES = {"put", "set", "delete"}

# An expression is ("lit", type, value), ("var", name), ("!", operand) or (operator, left, right).
Catalogue = collections.namedtuple("Catalogue", "tables procs")
Table = collections.namedtuple("Table", "name key columns")
Proc = collections.namedtuple("Proc", "name params body")
Statement = collections.namedtuple("Statement", "kind var table key column values default bounds blocks", defaults=[None] * 8)


class Reader:
    """Reads a catalogue whose text is right."""

    def __init__(self, text):
        assert "".join(match.group(0) for match in TOKEN.finditer(text)) == text, "a byte that begins no token"
        self.tokens = [match.group(1) for match in TOKEN.finditer(text) if match.group(1)] + [""]
        self.at = 0

    def peek(self):
        return self.tokens[self.at]

    def next(self, wanted=None):
        token = self.tokens[self.at]
        assert wanted in (None, token), (wanted, token, self.at)
        self.at += 1
        return token

    def all(self, *wanted):
        """The tokens that stand at the places of None."""
        return [token for want in wanted for token in [self.next(want)] if want is None]

    def takes(self, token):
        if self.peek() != token:
            return False
        self.at += 1
        return True

    def listed(self, item, close):
        items = []
        while not self.takes(close):
            if items:
                self.next(",")
            items.append(item())
        return items

    def column(self):
        return self.next(), self.next()

    def catalogue(self):
        tables, procs = [], []
        while self.takes("table"):
            name, key = self.all(None, "(", "key", None, ",")
            tables.append(Table(name, key, self.listed(self.column, ")")))
            self.next(";")
        while self.takes("proc"):
            name = self.all(None, "(")[0]
            procs.append(Proc(name, self.listed(self.column, ")"), self.block()))
        self.next("")
        return Catalogue(tables, procs)

    def block(self):
        self.next("{")
        body = []
        while not self.takes("}"):
            body.append(self.statement(self.next()))
        return body

    def statement(self, kind):
        if kind == "if":
            test, then = self.expression(), self.block()
            return Statement("if", values=[test], blocks=[then, self.block() if self.takes("else") else []])
        if kind == "for":
            var = self.all(None, "in")[0]
            bounds = self.literal()[2], self.all("..") or self.literal()[2]
            return Statement("for", var=var, bounds=bounds, blocks=[self.block()])
        made = self.simple(kind)
        self.next(";")
        return made

    def simple(self, kind):
        if kind == "abort":
            self.next("if")
            return Statement("abort", values=[self.expression()])
        var = self.all(None, "=")[0] if kind in ("let", "read", "has") else None
        if kind == "let":
            return Statement("let", var, values=[self.expression()])
        table, key = self.all(None, "[")[0], self.expression()
        self.next("]")
        made = Statement(kind, var, table, key)
        if kind == "read":
            column = self.all(".", None, "default")[0]
            return made._replace(column=column, default=self.literal())
        if kind == "put":
            self.all("=", "(")
            return made._replace(values=self.listed(self.expression, ")"))
        if kind == "set":
            column = self.all(".", None, "=")[0]
            return made._replace(column=column, values=[self.expression()])
        assert kind in ("has", "delete"), kind
        return made

    def expression(self, level=0):
        if level == NOT:
            return self.operand()
        left = self.expression(level + 1)
        while self.peek() in LEVELS[level]:
            left = (self.next(), left, self.expression(level + 1))
            if level == COMPARISON:
                break
        return left

    def operand(self):
        if self.takes("!"):
            return "!", self.operand()
        if self.takes("("):
            inner = self.expression()
            self.next(")")
            return inner
        if re.match(r"[A-Za-z_]", self.peek()) and self.peek() not in ("true", "false"):
            return "var", self.next()
        return self.literal()

    def literal(self):
        token = self.next()
        if token in ("true", "false"):
            return "lit", "bool", token == "true"
        if token[0] == '"':
            return "lit", "text", re.sub(r"\\(.)", r"\1", token[1:-1])
        return "lit", "int", -int(self.next()) if token == "-" else int(token)


# The canonical text. With a source of random numbers it has more parentheses than it needs, and empty branches.

def spelled(value):
    if isinstance(value, bool):
        return str(value).lower()
    return str(value) if isinstance(value, int) else '"' + re.sub(r'(["\\])', r"\\\1", value) + '"'


def level_of(expression):
    return ATOM if expression[0] in ("lit", "var") else NOT if expression[0] == "!" else LEVEL[expression[0]]


def shown(expression, rng, least=0):
    """The text of an expression, in parentheses where its level is lower than `least`."""
    kind, level = expression[0], level_of(expression)
    if kind in ("lit", "var"):
        text = spelled(expression[2]) if kind == "lit" else expression[1]
    elif kind == "!":
        text = "!" + shown(expression[1], rng, NOT)
    else:
        left = shown(expression[1], rng, level + (level == COMPARISON))
        text = f"{left} {kind} {shown(expression[2], rng, level + 1)}"
    return f"({text})" if level < least or rng and rng.random() < 0.1 else text


def lines_of(body, rng, indent="  "):
    for s in body:
        values = ", ".join(shown(value, rng) for value in s.values or [])
        place = f"{s.table}[{shown(s.key, rng)}]" if s.table else ""
        if s.kind == "if":
            yield f"{indent}if {values} {{"
            yield from lines_of(s.blocks[0], rng, indent + "  ")
            if s.blocks[1] or rng and rng.random() < 0.3:
                yield f"{indent}}} else {{"
                yield from lines_of(s.blocks[1], rng, indent + "  ")
            yield f"{indent}}}"
        elif s.kind == "for":
            yield f"{indent}for {s.var} in {s.bounds[0]}..{s.bounds[1]} {{"
            yield from lines_of(s.blocks[0], rng, indent + "  ")
            yield f"{indent}}}"
        else:
            yield indent + {
                "let": f"let {s.var} = {values};",
                "read": f"read {s.var} = {place}.{s.column} default {spelled(s.default[2]) if s.default else ''};",
                "has": f"has {s.var} = {place};",
                "put": f"put {place} = ({values});",
                "set": f"set {place}.{s.column} = {values};",
                "delete": f"delete {place};",
                "abort": f"abort if {values};",
            }[s.kind]


def text_of(catalogue, rng=None):
    lines = []
    for name, key, columns in catalogue.tables:
        lines.append(f"table {name}(key {key}, {', '.join(map(' '.join, columns))});")
    for name, params, body in catalogue.procs:
        lines += [f"proc {name}({', '.join(map(' '.join, params))}) {{", *lines_of(body, rng), "}"]
    return "".join(line + "\n" for line in lines)


# The answer.

def variables(expression):
    if expression[0] == "var":
        return {expression[1]}
    return set().union(*(variables(part) for part in expression[1:])) if expression[0] != "lit" else set()


# `of_key` has those of `uses` that define a variable of its key.
Operation = collections.namedtuple("Operation", "uses table modifies of_key", defaults=[frozenset()])


def add_operations(body, names, conditions, operations):
    """Adds the operations of a body. `names` has the operation that defines each visible variable, and None for what none defines."""
    names = dict(names)
    for s in body:
        if s.kind == "for":
            for _ in range(*s.bounds):
                add_operations(s.blocks[0], {**names, s.var: None}, conditions, operations)
            continue
        number = len(operations)
        of_key = {names[name] for name in variables(s.key)} - {None} if s.key else set()
        of_values = {names[name] for value in s.values or [] for name in variables(value)} - {None}
        operations.append(Operation(of_key | of_values | set(conditions), s.table, s.kind in MODIFIES, of_key))
        for block in s.blocks or []:
            add_operations(block, names, conditions + [number], operations)
        if s.var:
            names[s.var] = number


def operations_of(proc):
    operations = []
    add_operations(proc.body, {name: None for name, _ in proc.params}, [], operations)
    return operations


def classes(count, flows, clashes):
    """The classes of mutual reachability in their order, and their edges. A node that is lower comes before."""
    pairs = sorted(flows | clashes | {(j, i) for i, j in clashes})
    reached = [1 << i for i in range(count)]
    changed = True
    while changed:
        before = list(reached)
        for i, j in pairs:
            reached[i] |= reached[j]
        changed = reached != before
    # Each reaches itself, so two reach each other just where they reach the same.
    members = collections.defaultdict(list)
    for i in range(count):
        members[reached[i]].append(i)
    class_of = {i: found[0] for found in members.values() for i in found}
    edges = {(class_of[i], class_of[j]) for i, j in flows if class_of[i] != class_of[j]}
    numbers = {}
    while len(numbers) < len(members):
        waiting = {after for before, after in edges if before not in numbers}
        numbers[min(i for i in class_of.values() if i not in numbers and i not in waiting)] = len(numbers)
    listed = sorted(members.values(), key=lambda found: numbers[found[0]])
    return listed, sorted((numbers[before], numbers[after]) for before, after in edges)


def clashing(operations):
    """The pairs of operations on one table of which one modifies it."""
    return {(i, j) for (i, a), (j, b) in itertools.combinations(enumerate(operations), 2)
            if a.table and a.table == b.table and (a.modifies or b.modifies)}


def explained(catalogue):
    lines, nodes, operations, flows = [], [], [], set()
    for proc in catalogue.procs:
        own = operations_of(proc)
        own_flows = {(i, j) for j, operation in enumerate(own) for i in operation.uses}
        slices, links = classes(len(own), own_flows, clashing(own))
        lines += [f"slice {proc.name} {number}: {' '.join(map(str, found))}" for number, found in enumerate(slices)]
        lines += [f"link {proc.name} {before} {after}" for before, after in links]
        flows |= {(len(nodes) + i, len(nodes) + j) for i, j in own_flows}
        nodes += [f"{proc.name}.{number}" for number in range(len(own))]
        operations += own
    first_table = len(nodes)
    nodes += [f"table {table.name}" for table in catalogue.tables]
    operations += [Operation(set(), table.name, True) for table in catalogue.tables]
    blocks, edges = classes(len(nodes), flows, clashing(operations))
    for number, found in enumerate(blocks):
        members = [i for i in found if i >= first_table] + [i for i in found if i < first_table]
        lines.append(f"block {number}: {', '.join(nodes[i] for i in members)}")
    return "".join(line + "\n" for line in lines + [f"edge {before} {after}" for before, after in edges])


def main(words):
    if words not in ([], ["--text"]):
        return __doc__
    catalogue = Reader(sys.stdin.read()).catalogue()
    sys.stdout.write((text_of(catalogue) if words else "") + explained(catalogue))
    return 0


if __name__ == "__main__":
    sys.exit(main(sys.argv[1:]))
