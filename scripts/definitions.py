"""The definitions on which soundness rests, and a number by which a change of them is seen."""
import hashlib
import os

from tree import ROOT, files, text_of

TOP = "jv_sound"


def uses_of():
    """Of each crate the libraries that it uses."""
    uses = {}
    for line in text_of("crates.txt").splitlines():
        name, _, named = line.partition("#")[0].partition(":")
        if name.strip():
            uses[name.split()[0]] = named.split()
    return uses


def crates_below(name, uses):
    """The crates below another one, lowest first."""
    found = []
    for used in uses[name]:
        if used in uses:
            found += [it for it in [*crates_below(used, uses), used] if it not in found]
    return found


def checksum():
    """The checksum of the definitions of the crates below the proof that verified code meets no fault, comments left out."""
    below = {*crates_below(TOP, uses_of()), TOP}
    summed = hashlib.sha256()
    for file in files():
        at = file.split(os.sep)
        if at[0] == "crates" and at[1] in below and at[2] == "specs":
            lines = [it for it in text_of(file).splitlines() if it.strip() and not it.lstrip().startswith("--")]
            summed.update("\n".join([file, *lines, ""]).encode())
    return summed.hexdigest()[:16]


if __name__ == "__main__":
    print(ROOT, checksum())
