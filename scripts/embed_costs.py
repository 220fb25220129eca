"""What calls of libjvhost cost from C, beside the same from Rattle, a process of the program and one of `java`.

Microseconds are the middle of some runs, and want a machine that does nothing else; instructions are counted by valgrind, and do not. The
program in Rattle stands below. It calls the host and the verifier as a Rattle program does, is built without proofs, as by
scripts/unproved, and says so on standard error.
"""
import os
import re
import shutil
import subprocess
import sys
import tempfile
import typing

import guests
import kit
import libraries
import measured
from tree import ROOT

COLUMNS = ["call", "C, µs", "Rattle, µs", "C, instructions", "Rattle, instructions", "what it does"]


class Call(typing.NamedTuple):
    """How often a call is made, for its time and for its instructions, and what it does."""

    timed: int
    counted: int
    what: str


CALLS = {
    "new": Call(1, 1, "a host, the first of the process"),
    "admit": Call(64, 64, "a guest is judged and begins"),
    "turn": Call(320, 320, "one step"),
    "observe": Call(1_000_000, 10_000, "what a guest shows"),
    "judge": Call(1000, 50, "a host, a guest, six steps, what it shows"),
    "judge_beside": Call(1000, 50, "the same on the files of a host"),
    "check": Call(1000, 50, "the verdict alone"),
    "check_beside": Call(1000, 50, "the same on the files of a host"),
}
HI = os.path.join(ROOT, "examples", "hi")
RUNS = 21
IN_RATTLE = os.path.join(ROOT, "bindings", "out", "costs-in-rattle")
TEXT_IN_RATTLE = """
use jv_host::{Budget, GuestFiles, GuestId, Host};
use jv_loader::{SystemFiles, system_files};
use jv_store::Cells;
use jv_verify::verify_files;
use std::hash::RandomState;
use std::process::ExitCode;
use std::random::RandomSource;
use std::rt::{Env, Files};
use std::time::{Clock, Instant};
use std::{env, fs, io};

const BUDGET: Budget = Budget { cells: 65_536, words: 65_536, output: 65_536 };
const GUESTS: u32 = 64;

// The seed that bindings/c/costs.c has for calls that are not measured.
#[derive(Drop)]
struct Seed;

impl RandomSource for Seed {
    fn fill_bytes(&self, buf: &mut [u8]) -> io::Result<()> {
        for (place, to) in buf.iter_mut().enumerate() {
            *to = if place == 0 { 1 } else if place == 8 { 2 } else { 0 };
        }
        Ok(())
    }
}

fn judged<'a, R: AllocGlobal>(rt: &R, state: RandomState, guest: GuestFiles<'a>) -> Option<u64> {
    let mut host: Host<'a, Cells> = Host::new(rt.alloc(), state);
    let id = host.admit(guest, BUDGET).ok()?;
    host.turn(id, 1_000_000).ok()?;
    let seen = host.observe(id).ok()?;
    Some(seen.steps + seen.output.len() as u64)
}

fn checked<R: AllocGlobal>(rt: &R, state: RandomState, system: &SystemFiles, files: &[&[u8]]) -> Option<u64> {
    let verified = verify_files(rt.alloc(), state, system, files).ok()?;
    if verified.host_stands(rt.alloc(), state).ok()? { Some(verified.verdicts().len() as u64) } else { None }
}

fn new_host<R: AllocGlobal + RandomSource>(rt: &R) -> Option<u64> {
    let _system = system_files(rt.alloc()).ok()?;
    let host: Host<'_, Cells> = Host::new(rt.alloc(), RandomState::new(rt).ok()?);
    if host.observe(GuestId(0)).is_ok() { None } else { Some(0) }
}

fn judge<R: AllocGlobal + RandomSource>(rt: &R, files: &[&[u8]]) -> Option<u64> {
    let system = system_files(rt.alloc()).ok()?;
    judged(rt, RandomState::new(rt).ok()?, GuestFiles { system: &system, files, main: b"Hi", input: b"" })
}

fn check<R: AllocGlobal + RandomSource>(rt: &R, files: &[&[u8]]) -> Option<u64> {
    let system = system_files(rt.alloc()).ok()?;
    checked(rt, RandomState::new(rt).ok()?, &system, files)
}

#[derive(Clone, Copy)]
enum Call { New, Admit, Turn, Observe, Judge, JudgeBeside, Check, CheckBeside }

fn call_named(name: &str) -> Option<Call> {
    match name {
        "new" => Some(Call::New),
        "admit" => Some(Call::Admit),
        "turn" => Some(Call::Turn),
        "observe" => Some(Call::Observe),
        "judge" => Some(Call::Judge),
        "judge_beside" => Some(Call::JudgeBeside),
        "check" => Some(Call::Check),
        "check_beside" => Some(Call::CheckBeside),
        _ => None,
    }
}

// Makes a call for the i-th time.
fn make<'a, R: AllocGlobal + RandomSource>(
    rt: &R,
    call: Call,
    state: RandomState,
    host: &mut Host<'a, Cells>,
    guest: GuestFiles<'a>,
    i: u32,
) -> Option<u64> {
    let id = GuestId(i % GUESTS);
    match call {
        Call::New => new_host(rt),
        Call::Admit => Some(u64::from(host.admit(guest, BUDGET).ok()?.0)),
        Call::Turn => host.turn(id, 1).ok(),
        Call::Observe => {
            let seen = host.observe(id).ok()?;
            Some(seen.steps + seen.throws + (seen.output.len() + seen.verdicts.len()) as u64)
        }
        Call::Judge => judge(rt, guest.files),
        Call::JudgeBeside => judged(rt, state, guest),
        Call::Check => check(rt, guest.files),
        Call::CheckBeside => checked(rt, state, guest.system, guest.files),
    }
}

fn measured<R: AllocGlobal + RandomSource + Clock + Print>(rt: &R, class: &[u8], call: Call, count: u32) -> Option<()> {
    let system = system_files(rt.alloc()).ok()?;
    let state = RandomState::new(&Seed).ok()?;
    let files = [class];
    let guest = GuestFiles { system: &system, files: &files, main: b"Hi", input: b"" };
    let mut host: Host<'_, Cells> = Host::new(rt.alloc(), state);
    if matches!(call, Call::Turn) || matches!(call, Call::Observe) {
        for _ in 0..GUESTS {
            host.admit(guest, BUDGET).ok()?;
        }
    }
    let begun = Instant::now(rt).ok()?;
    let mut sum = 0;
    for i in 0..count {
        sum += make(rt, call, state, &mut host, guest, i)?;
    }
    let took = begun.elapsed(rt).ok()?;
    println!(rt; "{} {sum}", took.as_nanos()).ok()
}

fn costs<R: AllocGlobal + RandomSource + Clock + Print + Env + Files>(rt: &R) -> Option<()> {
    let words: Vec<String> = env::args(rt).ok()?.collect(rt.alloc()).ok()?;
    let class = fs::read(rt, words.get(1)?.as_str()).ok()?;
    let count = words.get(3)?.parse::<u32>().ok()?;
    measured(rt, &class, call_named(words.get(2)?.as_str())?, count)
}

fn main(rt: HostRuntime) -> ExitCode {
    match costs(&rt) {
        Some(()) => ExitCode::SUCCESS,
        None => ExitCode::FAILURE,
    }
}
"""


def shown(number):
    """Three digits, or all before the point."""
    return ("%.0f" if number >= 100 else "%.3g") % number


# ---- the programs that make the calls


def in_c(folder, room):
    """The words that run the program in C, or None."""
    made = os.path.join(room, "costs")
    source = os.path.join(ROOT, "bindings", "c", "costs.c")
    cc = "gcc" if shutil.which("gcc") else "clang"
    include = "-I" + os.path.dirname(libraries.HEADER)
    subprocess.run([cc, "-std=c99", "-O2", include, source, os.path.join(folder, "libjvhost.a"), "-o", made], check=True)
    return [made, HI]


def in_rattle(room):
    """The words that run the program in Rattle, which is built where a source is newer; None, which is told, where it can't be."""
    unproved, rt = libraries.script("unproved"), kit.load_rt()
    if unproved.is_stale(IN_RATTLE, os.path.realpath(__file__)):
        libraries.say("building the same calls in Rattle, without proofs; that takes some minutes")
        with tempfile.TemporaryDirectory(prefix="jvhost-costs-") as folder:
            os.makedirs(os.path.join(folder, "src"))
            with open(os.path.join(folder, "src", "main.rt"), "w", encoding="utf-8") as file:
                file.write(TEXT_IN_RATTLE)
            module = unproved.make_module(rt, room, "embed_host", folder)
        if module is None:
            return None
        os.makedirs(os.path.dirname(IN_RATTLE), exist_ok=True)
        shutil.copy(unproved.compile_module(module, rt, room), IN_RATTLE)
    libraries.say("nothing of the program in Rattle is proved")
    return [IN_RATTLE, os.path.join(HI, "Hi.class")]


# ---- what calls cost


def microseconds(words, name, call):
    """The middle of five runs of a call, or of one that is the process's first, of twenty-one."""
    runs = RUNS if call.timed == 1 else 5
    took = [float(measured.ran([*words, name, str(call.timed)]).output.split()[0]) for _ in range(runs)]
    return shown(measured.middle(took) / call.timed / 1000)


def collected(words):
    """How many instructions a command takes, as valgrind counts them."""
    valgrind = ["valgrind", "--tool=callgrind", "--callgrind-out-file=/dev/null"]
    ran = subprocess.run([*valgrind, *words], stdin=subprocess.DEVNULL, stdout=subprocess.DEVNULL, stderr=subprocess.PIPE, text=True)
    found = re.search(r"Collected : (\d+)", ran.stderr)
    if ran.returncode or found is None:
        sys.exit(ran.stderr)
    return int(found[1])


def instructions(words, name, call):
    """What the calls take beyond none of them."""
    if shutil.which("valgrind") is None:
        return "-"
    with_calls, without = (collected([*words, name, str(count)]) for count in (call.counted, 0))
    return "%d" % round((with_calls - without) / call.counted)


def of_calls(c, rattle):
    for name, call in CALLS.items():
        numbers = [measure_one(words, name, call) if words else "-" for measure_one in (microseconds, instructions) for words in (c, rattle)]
        yield ["`jvhost_%s`" % name, *numbers, call.what]


def of_processes(program, room):
    """The rows of processes that do the same."""
    middle = lambda words: shown(measured.middle([measured.ran(words).wall for _ in range(RUNS)]) * 1e6)  # noqa: E731
    words = [program, "run", HI]
    count = str(collected(words)) if shutil.which("valgrind") else "-"
    yield ["a process of the program", middle(words), "-", count, "-", "`jvhost run`"]
    if shutil.which("java") and shutil.which("javac"):
        at = HI + ":" + guests.compiled_io(room)
        yield ["a process of `java`", middle(["java", "-cp", at, "Hi"]), "-", "-", "-", "as it comes"]
    else:
        print("a process of java: not run, since there is no java", file=sys.stderr)


def measure(folder, writes, program=None):
    """Measures over the libraries of a folder, and prints a table; a process is that of this program, or of one built as they are."""
    is_unproved = measured.how_built(os.path.join(folder, "libjvhost.a")) == libraries.HOW[True]
    program = program or libraries.program(is_unproved)
    if program is None:
        return 1
    if shutil.which("valgrind") is None:
        print("instructions: not counted, since there is no valgrind", file=sys.stderr)
    with tempfile.TemporaryDirectory(prefix="embed-costs-") as room:
        rattle = in_rattle(room)
        if rattle is None:
            return 1
        rows = [*of_calls(in_c(folder, room), rattle), *of_processes(program, room)]
    measured.show(COLUMNS, rows)
    if writes:
        how = "built without proofs, by scripts/embed --costs"
        measured.write("embed-costs", COLUMNS, rows, program=os.path.join(folder, "libjvhost.a"), rattle=how)
    return 0
