"""What the scripts that measure have in common: their words, a command's time and memory, and tables of data below docs/data.

A table of data is docs/data/NAME.tsv: lines that begin with `# ` (when it was made and by which script, the machine, the kit, java, and
how the program was built), a line with the names of the columns, and a line a row, with a TAB between columns.
"""
import argparse
import datetime
import os
import platform
import re
import shutil
import statistics
import subprocess
import sys
import tempfile
import time
import typing

from tree import ROOT

PROGRAM = os.path.join(ROOT, "crates", "jvhost", "out", "jvhost")
UNPROVED = os.path.join(ROOT, "crates", "jvhost", "out", "unproved")
DATA = os.path.join(ROOT, "docs", "data")
TIME = "/usr/bin/time"


class Words(argparse.ArgumentParser):
    """The words of a script, whose text is its help."""

    def __init__(self, text):
        super().__init__()
        self.text = text

    def format_help(self):
        return self.text.strip() + "\n"


def words_of(text, writes=True):
    """Words with the program that is measured, and whether a table of data is written."""
    words = Words(text)
    words.add_argument("--program", default=PROGRAM)
    if writes:
        words.add_argument("--write", action="store_true")
    return words


def program_of(given):
    """The path of the program that the words name."""
    path = os.path.realpath(given.program)
    if not os.access(path, os.X_OK):
        print("there is no program at %s: ./jvhost builds it, scripts/unproved one without proofs" % given.program, file=sys.stderr)
        sys.exit(2)
    return path


class Ran(typing.NamedTuple):
    """A command that has ended: its seconds, those of the processor, its MB where they were asked for, its status and what it wrote."""

    wall: float
    processor: float
    megabytes: float
    status: int
    output: bytes


def ran(words, cwd=None, stdin=subprocess.DEVNULL, before=None, with_memory=False, with_errors=False):
    """Runs a command to its end. Its memory is what /usr/bin/time says: of a process that this one starts, the system counts this one's."""
    with tempfile.TemporaryFile() as output, tempfile.NamedTemporaryFile("r") as said:
        given = [TIME, "-q", "-f", "%M", "-o", said.name, *words] if with_memory else words
        errors = subprocess.STDOUT if with_errors else subprocess.DEVNULL
        begun = time.perf_counter()
        run = subprocess.Popen(given, cwd=cwd, stdin=stdin, stdout=output, stderr=errors, preexec_fn=before)
        _, status, used = os.wait4(run.pid, 0)
        wall = time.perf_counter() - begun
        run.returncode = os.waitstatus_to_exitcode(status)
        output.seek(0)
        megabytes = int(said.read().split()[-1]) * 1024 / 1e6 if with_memory else 0.0
        return Ran(wall, used.ru_utime + used.ru_stime, megabytes, run.returncode, output.read())


def middle(values):
    return statistics.median(values)


def said_by(words):
    """The first line that a command writes, or `none` where there is no such command."""
    if shutil.which(words[0]) is None:
        return "none"
    done = subprocess.run(words, stdin=subprocess.DEVNULL, stdout=subprocess.PIPE, stderr=subprocess.STDOUT, text=True)
    return done.stdout.strip().split("\n")[0]


def text_of(path):
    with open(path, encoding="utf-8") as file:
        return file.read()


def machine():
    """The processor's model, how many cores of it there are, and the memory."""
    model = re.search(r"(?m)^model name\s*: (.*)$", text_of("/proc/cpuinfo"))
    memory = re.search(r"(?m)^MemTotal:\s+(\d+) kB$", text_of("/proc/meminfo"))
    cores = len(os.sched_getaffinity(0))
    return "%s, %d cores, %.0f GB" % (model[1] if model else platform.machine(), cores, int(memory[1]) * 1024 / 1e9)


def is_unproved(program):
    """Whether a program is the one that scripts/unproved builds."""
    return program is not None and os.path.realpath(program) == os.path.realpath(UNPROVED)


def how_built(program):
    if program == os.path.realpath(PROGRAM):
        return "proved, and built by ./jvhost"
    if is_unproved(program):
        return "built without its proofs, by scripts/unproved"
    if os.path.isfile(os.path.join(os.path.dirname(program), "built")):
        return text_of(os.path.join(os.path.dirname(program), "built"))
    return "another build, %s" % os.path.basename(program)


def facts(program):
    """What a table of data says of itself, by names."""
    script = os.path.relpath(os.path.realpath(sys.argv[0]), ROOT)
    found = {
        "made": "%s by %s" % (datetime.date.today().isoformat(), script),
        "machine": machine(),
        "kit": said_by(["rt", "version"]),
        "java": said_by(["java", "-version"]),
    }
    if program:
        found["program"] = how_built(program)
    return found


def write(name, columns, rows, program=None, **more):
    """Writes a table of data, with what more it says of itself."""
    os.makedirs(DATA, exist_ok=True)
    with open(os.path.join(DATA, name + ".tsv"), "w", encoding="utf-8") as file:
        for key, value in {**facts(program), **more}.items():
            file.write("# %s: %s\n" % (key, value))
        for row in [columns, *rows]:
            file.write("\t".join(map(str, row)) + "\n")


def read(name):
    """A table of data: what it says of itself, its columns and its rows."""
    lines = text_of(os.path.join(DATA, name + ".tsv")).splitlines()
    about = dict(line[2:].split(": ", 1) for line in lines if line.startswith("# "))
    columns, *rows = [line.split("\t") for line in lines if not line.startswith("# ")]
    return about, columns, rows


def show(columns, rows):
    """Prints a table, its first column to the left and the others to the right."""
    table = [[str(it) for it in row] for row in [columns, *rows]]
    sizes = [max(map(len, column)) for column in zip(*table)]
    for row in table:
        cells = [row[0].ljust(sizes[0])] + [it.rjust(size) for it, size in zip(row[1:], sizes[1:])]
        print("  ".join(cells).rstrip())
