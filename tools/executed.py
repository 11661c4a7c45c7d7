"""Executes calls of a catalogue one after another, as docs/LANGUAGE.md says, with nothing of the program.

`Database(catalogue)` has no rows. `call` changes its tables and returns None, or leaves them as they were and returns why the
call aborts: the number of the operation and the reason. `dump` is what `pacman replay` and `pacman recover` print.
"""
from explained import spelled

LEAST, MOST = -2**63, 2**63 - 1


class Abort(Exception):
    pass


def divided(a, b):
    if b == 0:
        raise Abort("DivZero")
    return abs(a) // abs(b) * (1 if (a < 0) == (b < 0) else -1)


ARITHMETIC = {
    "+": lambda a, b: a + b,
    "-": lambda a, b: a - b,
    "*": lambda a, b: a * b,
    "/": divided,
    "%": lambda a, b: a - b * divided(a, b),
}
COMPARISONS = {
    "==": lambda a, b: a == b,
    "!=": lambda a, b: a != b,
    "<": lambda a, b: a < b,
    "<=": lambda a, b: a <= b,
    ">": lambda a, b: a > b,
    ">=": lambda a, b: a >= b,
}


def value_of(expression, names):
    kind = expression[0]
    if kind == "lit":
        return expression[2]
    if kind == "var":
        return names[expression[1]]
    if kind == "!":
        return not value_of(expression[1], names)
    left = value_of(expression[1], names)
    if kind == "&&":
        return left and value_of(expression[2], names)
    if kind == "||":
        return left or value_of(expression[2], names)
    right = value_of(expression[2], names)
    if kind in COMPARISONS:
        return COMPARISONS[kind](left, right)
    result = ARITHMETIC[kind](left, right)
    if not LEAST <= result <= MOST:
        raise Abort("Overflow")
    return result


class Database:
    def __init__(self, catalogue):
        self.catalogue = catalogue
        self.procs = {proc.name: proc for proc in catalogue.procs}
        self.columns = {table.name: [name for name, _ in table.columns] for table in catalogue.tables}
        self.rows = {table.name: {} for table in catalogue.tables}

    def call(self, name, arguments):
        """Why the call aborts: the operation's number and the reason. None where it commits."""
        proc = self.procs[name]
        before = {table: dict(rows) for table, rows in self.rows.items()}
        self.number = 0
        try:
            self.run(proc.body, dict(zip([param for param, _ in proc.params], arguments)), True)
        except Abort as abort:
            self.rows = before
            return self.number, str(abort)
        return None

    def run(self, body, names, live):
        """Goes through a block, whose operations have numbers whether they run or not."""
        names = dict(names)
        for statement in body:
            if statement.kind == "for":
                for turn in range(*statement.bounds):
                    self.run(statement.blocks[0], {**names, statement.var: turn}, live)
                continue
            answer = self.execute(statement, names) if live else None
            self.number += 1
            if statement.kind == "if":
                self.run(statement.blocks[0], names, live and answer)
                self.run(statement.blocks[1], names, live and not answer)
            elif statement.var:
                names[statement.var] = answer

    def execute(self, statement, names):
        """The value that an operation defines, or that of a condition."""
        kind = statement.kind
        key = value_of(statement.key, names) if statement.key else None
        values = [value_of(value, names) for value in statement.values or []]
        if kind in ("let", "if"):
            return values[0]
        if kind == "abort":
            if values[0]:
                raise Abort("Asked")
            return None
        rows, columns = self.rows[statement.table], self.columns[statement.table]
        if kind == "read":
            return rows[key][columns.index(statement.column)] if key in rows else statement.default[2]
        if kind == "has":
            return key in rows
        if kind == "put":
            rows[key] = tuple(values)
        elif kind == "delete":
            rows.pop(key, None)
        elif key not in rows:
            raise Abort("Missing")
        else:
            at = columns.index(statement.column)
            rows[key] = rows[key][:at] + (values[0],) + rows[key][at + 1:]
        return None

    def dump(self):
        lines = []
        for table in self.catalogue.tables:
            rows = self.rows[table.name]
            lines.append(f"table {table.name} {len(rows)}")
            lines += [f"{spelled(key)} ({', '.join(map(spelled, rows[key]))})" for key in sorted(rows)]
        return "".join(line + "\n" for line in lines)
