#!/usr/bin/env python3
"""Says what `pacman lay` has to answer for a log of after-images, by docs/FORMATS.md and docs/COMMANDS.md alone: nothing of the program
is used.

    tools/image_log.py FILE

`answer(log)` takes the bytes of a log, and gives the status, the output and the line on standard error. The catalogue is read by
tools/explained.py, which notices a text that has no catalogue's form, but not one that is refused for a type or a name: where it has
no form the line is just `catalogue`.
"""
import os
import sys

sys.dont_write_bytecode = True
from executed import Database  # noqa: E402
from explained import Reader  # noqa: E402
from stored import Bytes, Damaged  # noqa: E402

# The place and the kind of a first fault, and the number of rows that a table may have.
MOST_IMAGES, MOST_BYTES, MOST_ROWS = 256, 67_108_864, 1_000_000


def parts(log):
    """The catalogue's text and the bytes of the lists."""
    at = 0
    while True:
        end = log.find(b"\n", at)
        line = log[at:] if end < 0 else log[at:end]
        if line == b"---":
            return log[:at], log[at + 4 :]
        if end < 0:
            return log, b""
        at = end + 1


def image(reader, catalogue, last):
    """A record whose cell is above the last one: its cell, and its row or none."""
    at, tag = reader.at, reader.number(1)
    if tag not in (1, 2):
        raise Damaged(at, "Tag")
    number, table = reader.at, reader.one_of(catalogue.tables, "UnknownTable")
    number = int.from_bytes(reader.data[number : number + 2], "little")
    reader.wrong = "WrongRow"
    at, key = reader.at, reader.value(table.key)
    cell = (number, key.encode("ascii") if table.key == "text" else key)
    if last is not None and not last < cell:
        raise Damaged(at, "Order")
    return cell, (table.name, key), reader.values([type_ for _, type_ in table.columns]) if tag == 1 else None


def lists(data, catalogue):
    """The lists one after another, each of images as their table and key, and their row or none."""
    reader, found = Bytes(data, 0, len(data), None), []
    while reader.at < len(data):
        at, tag = reader.at, reader.number(1)
        if tag != 3:
            raise Damaged(at, "Tag")
        at, count = reader.at, reader.number(2)
        if count > MOST_IMAGES:
            raise Damaged(at, "TooMany")
        images, last = [], None
        for _ in range(count):
            last, cell, row = image(reader, catalogue, last)
            images.append((cell, row))
        found.append(images)
    return found


def answer(log, limit=MOST_ROWS):
    if len(log) > MOST_BYTES:
        return 11, "", "input too long\n"
    text, data = parts(log)
    try:
        catalogue = Reader(text.decode("ascii")).catalogue()
    except (AssertionError, IndexError, KeyError, ValueError):
        return 2, "", "catalogue"
    try:
        found = lists(data, catalogue)
    except Damaged as fault:
        return 2, "", f"image {fault.args[0]} {fault.args[1]}\n"
    database = Database(catalogue)
    for images in found:
        for (table, key), row in images:
            if row is None:
                database.rows[table].pop(key, None)
            else:
                database.rows[table][key] = row
    for table in catalogue.tables:
        if len(database.rows[table.name]) > limit:
            return 5, "", f"rows {table.name} {len(database.rows[table.name])} {limit}\n"
    return 0, database.dump(), ""


def main(words):
    with open(words[0], "rb") as file:
        status, output, line = answer(file.read())
    sys.stdout.write(output)
    sys.stderr.write(line)
    return status


if __name__ == "__main__":
    sys.exit(main(sys.argv[1:]))
