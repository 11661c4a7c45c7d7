#!/usr/bin/env python3
"""Says what `pacman recover` has to answer for the files of a store, by docs/FORMATS.md alone: nothing of the program is used.

    tools/stored.py FOLDER

`answer(log, log_b, a, b)` takes the bytes of the four files, and gives the status, the output and the line on standard error. The
catalogue is read by tools/explained.py, which notices a text that has no catalogue's form, but not one that is refused for a type or
a name. What the transactions leave is computed by tools/executed.py.
"""
import os
import sys

sys.dont_write_bytecode = True
from executed import Database  # noqa: E402
from explained import Reader  # noqa: E402


class Damaged(Exception):
    """At an offset of a file, of a kind."""


class Bytes:
    """The bytes of a file up to an end, read field by field. `wrong` is the kind of damage of a value that isn't right."""

    def __init__(self, data, at, end, wrong):
        self.data, self.at, self.end, self.wrong = data, at, end, wrong

    def take(self, count):
        if self.at + count > self.end:
            raise Damaged(self.at, "Short")
        self.at += count
        return self.data[self.at - count : self.at]

    def number(self, width):
        return int.from_bytes(self.take(width), "little")

    def value(self, type_):
        at, tag = self.at, self.number(1)
        if tag not in (1, 2):
            raise Damaged(at, "Tag")
        if tag != {"int": 1, "text": 2}[type_]:
            raise Damaged(at, self.wrong)
        if tag == 1:
            return int.from_bytes(self.take(8), "little", signed=True)
        field, length = self.at, self.number(1)
        if length > 64:
            raise Damaged(at, self.wrong)
        if self.at + length > self.end:
            raise Damaged(field, "Short")
        text = self.take(length)
        if any(not 0x20 <= byte <= 0x7E for byte in text):
            raise Damaged(at, self.wrong)
        return text.decode("ascii")

    def values(self, types):
        at, count = self.at, self.number(1)
        if count != len(types):
            raise Damaged(at, self.wrong)
        return tuple(self.value(type_) for type_ in types)

    def one_of(self, things, kind):
        at, number = self.at, self.number(2)
        if number >= len(things):
            raise Damaged(at, kind)
        return things[number]

    def entry(self, catalogue):
        """A call, ("call", name, arguments), or an ad-hoc transaction, ("adhoc", the rows that are put, or None, by table and key)."""
        at, tag = self.at, self.number(1)
        if tag == 1:
            proc = self.one_of(catalogue.procs, "UnknownProc")
            self.wrong = "WrongArgs"
            return "call", proc.name, self.values([type_ for _, type_ in proc.params])
        if tag == 2:
            at, count = self.at, self.number(1)
            if not 1 <= count <= 64:
                raise Damaged(at, "TooMany")
            return "adhoc", [self.record(catalogue) for _ in range(count)]
        raise Damaged(at, "Tag")

    def record(self, catalogue):
        at, tag = self.at, self.number(1)
        if tag not in (1, 2):
            raise Damaged(at, "Tag")
        table = self.one_of(catalogue.tables, "UnknownTable")
        self.wrong = "WrongRow"
        key = self.value(table.key)
        return table.name, key, self.values([type_ for _, type_ in table.columns]) if tag == 1 else None


def catalogue_of(log):
    """The catalogue of a segment, how many transactions came before it, and the offset of its first gate byte; nothing where it
    doesn't begin as one."""
    at, before = 8, 0
    if log[:8] == b"PACMLOG2":
        at, before = 16, int.from_bytes(log[8:16], "little")
    elif log[:8] != b"PACMLOG1":
        return None
    length = int.from_bytes(log[at : at + 4], "little")
    begin = at + 4
    if len(log) < begin + length + 1 or before > 1 << 62:
        return None
    try:
        return Reader(log[begin : begin + length].decode("ascii")).catalogue(), before, begin + length
    except (AssertionError, IndexError, KeyError, ValueError):
        return None


def log_of(log, catalogue, before, gate):
    """The transactions of a segment, and how many come before each gate byte, those before the segment among them."""
    txns, gates = [], {gate: before}
    while log[gate] == 1:
        body = Bytes(log, gate + 1, len(log), None)
        numbers = []
        for least, most in ((1, 1024), (0, 4194296)):
            at, number = body.at, body.number(4)
            if not least <= number <= most:
                raise Damaged(at, "Range")
            numbers.append(number)
        if body.at + numbers[1] + 1 > len(log):
            raise Damaged(body.at, "Short")
        entries = Bytes(log, body.at, body.at + numbers[1], None)
        txns += [entries.entry(catalogue) for _ in range(numbers[0])]
        if entries.at != entries.end:
            raise Damaged(entries.at, "Range")
        gate = entries.end
        gates[gate] = before + len(txns)
    return txns, gates


def front_of(slot):
    """The number of transactions, the log file and the place of an open slot, and the offset of its number of tables; nothing of
    one that is closed."""
    if slot[:1] != b"\1":
        return None
    if slot[1:9] not in (b"PACMSLT1", b"PACMSLT2"):
        raise Damaged(1, "Magic")
    reader, device = Bytes(slot, 9, len(slot), "Row"), 0
    txns, place = reader.number(8), reader.number(8)
    if slot[1:9] == b"PACMSLT2":
        at, device = reader.at, reader.number(1)
        if device > 1:
            raise Damaged(at, "Range")
    return txns, device, place, reader.at


def rows_of(slot, at, catalogue):
    """The rows of each table of an open slot."""
    reader, rows = Bytes(slot, at, len(slot), "Row"), {}
    if reader.number(2) != len(catalogue.tables):
        raise Damaged(at, "Range")
    for table in catalogue.tables:
        found, last = {}, None
        for _ in range(reader.number(8)):
            at, key = reader.at, reader.value(table.key)
            if last is not None and key <= last:
                raise Damaged(at, "Order")
            last = key
            found[key] = tuple(reader.value(type_) for _, type_ in table.columns)
        rows[table.name] = found
    return rows


def executed(catalogue, rows, txns, before):
    """The status, the output and the line of what transactions leave over rows."""
    database = Database(catalogue)
    database.rows.update(rows)
    for number, txn in enumerate(txns):
        if txn[0] == "call":
            abort = database.call(txn[1], txn[2])
            if abort:
                return 4, "", f"abort {before + number + 1} {abort[0]} {abort[1]}\n"
            continue
        for table, key, row in txn[1]:
            if row is None:
                database.rows[table].pop(key, None)
            else:
                database.rows[table][key] = row
    return 0, database.dump(), ""


def answer(log, log_b, a, b):
    slots, newest, device = {"a": a, "b": b}, None, None
    try:
        fronts = {}
        for device, data in slots.items():
            fronts[device] = front_of(data)
        newest = max((name for name in slots if fronts[name]), key=lambda name: fronts[name][0], default=None)
        saved, number, place, _ = fronts[newest] if newest else (0, 0, None, None)
        device, data = (("log", log), ("log_b", log_b))[number]
        begun = catalogue_of(data)
        if begun is None:
            return 3, "", "no store\n"
        catalogue, before, _ = begun
        if newest is None and before:
            raise Damaged(8, "Range")
        txns, gates = log_of(data, *begun)
        rows = {}
        for device, data in slots.items():
            rows[device] = rows_of(data, fronts[device][3], catalogue) if fronts[device] else {}
        device = newest
        if newest and gates.get(place) != saved:
            raise Damaged(9, "Place")
    except Damaged as damage:
        return 3, "", "damaged {} {} {}\n".format(device, *damage.args)
    return executed(catalogue, rows[newest] if newest else {}, txns[saved - before :], saved)


def main(words):
    if len(words) != 1:
        return __doc__
    def read(name):
        path = os.path.join(words[0], "pacman." + name)
        if not os.path.exists(path):
            return b""
        with open(path, "rb") as file:
            return file.read()
    status, output, line = answer(read("log"), read("log2"), read("a"), read("b"))
    print(output, end="")
    print(line, end="", file=sys.stderr)
    return status


if __name__ == "__main__":
    sys.exit(main(sys.argv[1:]))
