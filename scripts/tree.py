"""The files of this checkout, for scripts that look at all of them."""
import os

ROOT = os.path.dirname(os.path.dirname(os.path.realpath(__file__)))
# What git keeps, and what checks and Python leave.
APART = (".git", "out", "__pycache__")


def files():
    """Each file by its path from the top, in order."""
    found = []
    for at, folders, names in os.walk(ROOT):
        folders[:] = [it for it in folders if it not in APART]
        found += [os.path.relpath(os.path.join(at, name), ROOT) for name in names]
    return sorted(found)


def text_of(file):
    with open(os.path.join(ROOT, file), encoding="utf-8") as text:
        return text.read()
