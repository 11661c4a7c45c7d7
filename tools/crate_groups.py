"""The crates of crates.txt and their groups: a comment of one word there begins a group."""
import os

TOP = os.path.join(os.path.dirname(os.path.abspath(__file__)), "..")


def grouped():
    """The groups in order, each with its crates, and these each with the libraries that they use."""
    groups, own = {}, None
    with open(os.path.join(TOP, "crates.txt"), encoding="utf-8") as file:
        for line in file:
            words = line.split()
            if line.startswith("#") and len(words) == 2:
                own = groups.setdefault(words[1], {})
            elif words and not line.startswith("#"):
                head, _, tail = line.partition(":")
                own[head.split()[0]] = tail.split()
    return groups
