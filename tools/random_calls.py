"""Random catalogues most of whose calls commit, and random calls of their procedures with few different arguments, so that these
meet on rows. What the calls leave is computed by tools/executed.py.
"""
import importlib.machinery
import importlib.util
import os

from executed import Database
from explained import spelled

TOP = os.path.join(os.path.dirname(os.path.abspath(__file__)), "..")


def makers():
    """The module tools/random_catalogues, whose name has no ending."""
    loader = importlib.machinery.SourceFileLoader("random_catalogues", os.path.join(TOP, "tools", "random_catalogues"))
    module = importlib.util.module_from_spec(importlib.util.spec_from_loader("random_catalogues", loader))
    loader.exec_module(module)
    return module


MAKERS = makers()


def argument(rng, type_):
    if type_ == "text":
        return rng.choice(["", "a", "b", "row", 'q"\\'])
    return rng.choice([rng.randint(0, 3), rng.randint(0, 3), rng.randint(-9, 99), 2**63 - 1])


class Calls:
    """A random catalogue of one of these sizes, a database without rows, and calls that change it."""

    def __init__(self, rng, sizes):
        self.rng = rng
        while True:
            self.catalogue = MAKERS.catalogue_of(rng.randrange(10**9), rng.choice(sizes))
            self.database = Database(self.catalogue)
            committed = sum(self.call()[1] is None for _ in range(40))
            if committed >= 20 and sum(map(len, self.database.rows.values())) >= 4:
                break
        self.database = Database(self.catalogue)

    def call(self):
        """The line of a call with the procedure and its arguments, and why it aborts."""
        proc = self.rng.choice(self.catalogue.procs)
        arguments = [argument(self.rng, type_) for _, type_ in proc.params]
        line = f"call {proc.name}({', '.join(map(spelled, arguments))})"
        return (line, proc.name, arguments), self.database.call(proc.name, arguments)
