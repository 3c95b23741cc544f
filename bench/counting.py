"""What the benchmarks share that count whole runs: cards, sessions, plain programs, and instructions counted by valgrind."""

import argparse
import contextlib
import os
import re
import shutil
import statistics
import subprocess
import sys
import tempfile
import time
from typing import NamedTuple

import packs

TOP = os.path.join(os.path.dirname(os.path.abspath(__file__)), "..")
BUILT = os.path.join(TOP, "crates", "bureau", "out", "bureau")
GROWTH = 2.1                     # the most that twice the work may take
NO_COBOL = 3
QUEUE = 64
MINUS = "}JKLMNOPQR"


def mixed(number):
    """A number of 32 bits that looks drawn, the same in each run."""
    return (number * 2654435761 + 12345) % 4294967296


def punched(number, digits):
    text = "%0*d" % (digits, abs(number))
    return text if number >= 0 else text[:-1] + MINUS[int(text[-1])]


def lines(cards):
    return "".join(card + "\n" for card in cards)


def contents(path):
    with open(path, newline="\n") as text:
        return text.read()


def session(decks, turns, between_drains):
    """The decks of both levels, and as many turns of each as are said. Between two drains stand so many that they print no more
    lines than a queue takes."""
    levels = [level for level, deck in enumerate(decks, 1) if deck]
    script = ["T%d %d" % (level, between_drains) for level in levels] + ["D%d %d" % (level, QUEUE) for level in levels]
    script *= turns // between_drains + 2
    return lines([":deck1"] + decks[0] + [":deck2"] + decks[1] + [":script"] + script)


def output(reports):
    """What a session writes whose levels print these reports and have no halts."""
    return ":report1\n%s:halts1\n:report2\n%s:halts2\n" % tuple(reports)


def run(command, given, folder=None):
    with tempfile.TemporaryFile("w+") as source:
        source.write(given)
        source.seek(0)
        done = subprocess.run(command, stdin=source, capture_output=True, text=True, cwd=folder)
    if done.returncode != 0:
        sys.exit("bench: %s: status %d: %s" % (command[0], done.returncode, done.stderr[-300:]))
    return done


def timed(command, given, folder=None):
    """The seconds of a run."""
    with tempfile.TemporaryFile("w+") as source:
        source.write(given)
        source.seek(0)
        start = time.monotonic()
        status = subprocess.run(command, stdin=source, stdout=subprocess.DEVNULL, stderr=subprocess.DEVNULL, cwd=folder).returncode
        seconds = time.monotonic() - start
    if status != 0:
        sys.exit("bench: %s: status %d" % (command[0], status))
    return seconds


def instructions(command, given, folder=None):
    """How many instructions a program takes, and what it shows."""
    done = run(["valgrind", "--tool=callgrind", "--callgrind-out-file=/dev/null"] + command, given, folder)
    return int(re.search(r"Collected : (\d+)", done.stderr).group(1)), done.stdout


def instructions_for(report, name, command, given, folder=None):
    """How many instructions a program takes for a report; anything else that it shows ends the benchmark."""
    count, shown = instructions(command, given, folder)
    if shown != report:
        sys.exit("bench: the report of %s isn't the one wanted" % name)
    return count


def plain_rust(here, folder):
    """The program of `plain.rs`; not each program uses all of the modules that they share."""
    program = os.path.join(folder, "plain_rust")
    subprocess.run(["rustc", "--edition", "2024", "-O", "-A", "dead_code", "-o", program, os.path.join(here, "plain.rs")], check=True)
    return program


def plain_cobol(here, folder, name="plain"):
    """The program of GnuCOBOL, or None where there is no compiler of it."""
    if shutil.which("cobc") is None:
        return None
    program = os.path.join(folder, "cobol_" + name)
    options = ["-x", "-O2", "-fsign=EBCDIC", "-I", here, "-I", os.path.join(TOP, "bench"), "-o", program]
    subprocess.run(["cobc"] + options + [os.path.join(here, name + ".cob")], check=True)
    return program


class Counted:
    """Instructions of a program over all the work, and over half of it."""

    def __init__(self, name, counts):
        self.name, self.counts = name, counts

    def growth(self):
        return self.counts[0] / self.counts[1]

    def tell(self, work, what):
        """With what one piece of the work takes, the start taken off."""
        whole, half = self.counts
        each = (whole - half) // (work - work // 2)
        print("%s: %d instructions, %d %s without the start; twice the work takes %.2f times as many" % (self.name, whole, each, what, self.growth()), flush=True)


class Bounds(NamedTuple):
    """The most that the built program may take, in times another program's instructions, and the aims to reach."""

    rust: float
    rust_aim: float
    cobol: float = 1.0
    cobol_aim: float = 1.0

    def judge(self, bureau, rust, cobol):
        """Prints how the built program compares, and returns the status: 1 if a limit is passed."""
        passed = [bureau.growth() > GROWTH, passes(bureau, rust, self.rust, self.rust_aim)]
        if cobol is None:
            print("bench: there is no GnuCOBOL (cobc) to compare with", file=sys.stderr)
            return 1 if any(passed) else NO_COBOL
        return 1 if passes(bureau, cobol, self.cobol, self.cobol_aim) or any(passed) else 0


def passes(bureau, other, limit, aim):
    """Prints how many times the other program's instructions the built program takes, and returns whether that is above the limit."""
    ratio = bureau.counts[0] / other.counts[0]
    print("bureau takes %.3f times the instructions of %s (limit %.2f, aim %.2f)" % (ratio, other.name, limit, aim))
    return ratio > limit


class Work(NamedTuple):
    """The work of one size: what each program reads, and what it must show and leave.

    `pack` is the pack before the run, or None if no job has a file. `wanted` is the pack after the run, or None if no job changes
    it. `for_cobol` has the files of GnuCOBOL, or the texts that `load.cob` makes them of."""

    session: str
    cards: str
    report: str
    pack: bytes = None
    wanted: bytes = None
    for_cobol: dict = {}

    def files(self):
        return {"session.txt": self.session, "cards.txt": self.cards, "report.txt": self.report} | ({} if self.pack is None else {"before.pack": self.pack})

    def count(self, name, command, given, shown, folder):
        """The instructions of a program; a wrong report or a wrong pack ends the benchmark."""
        count = instructions_for(shown, name, command, given, folder)
        if self.wanted is not None:
            packs.expect(os.path.join(folder, "after.pack"), self.wanted, name)
        return count

    def rust_command(self, program):
        return [program] + ([] if self.pack is None else ["before.pack"]) + ([] if self.wanted is None else ["after.pack"])

    def bureau_command(self, exe):
        return [exe, "run"] + ([] if self.pack is None else ["--pack", "before.pack"]) + ([] if self.wanted is None else ["--save", "after.pack"])

    def in_rust(self, program, folder):
        return self.count("plain Rust", self.rust_command(program), self.cards, self.report, folder)

    def by_bureau(self, exe, folder):
        return self.count("bureau", self.bureau_command(exe), self.session, output((self.report, "")), folder)

    @contextlib.contextmanager
    def folder_for_cobol(self, loader):
        """A folder with GnuCOBOL's files."""
        with tempfile.TemporaryDirectory() as folder:
            keep(folder, self.for_cobol)
            if loader:
                run([loader], "", folder)
            yield folder

    def in_cobol(self, program, loader):
        with self.folder_for_cobol(loader) as folder:
            return instructions_for(self.report, "GnuCOBOL", [program], self.cards, folder)

    def tell_times(self, rounds, exe, in_rust, in_cobol, loader, folder):
        """Runs the programs by turns, and prints of each the median of its times."""
        runs = {"bureau": [], "plain Rust": [], "GnuCOBOL": []}
        for _ in range(rounds):
            runs["bureau"].append(timed(self.bureau_command(exe), self.session, folder))
            runs["plain Rust"].append(timed(self.rust_command(in_rust), self.cards, folder))
            if in_cobol:
                with self.folder_for_cobol(loader) as own:
                    runs["GnuCOBOL"].append(timed([in_cobol], self.cards, own))
        whole = statistics.median(runs["bureau"])
        for name, found in runs.items():
            if found:
                median = statistics.median(found)
                print("%s: %.1f milliseconds; bureau takes %.2f times as many" % (name, 1000 * median, whole / median), flush=True)


def arguments(what, size):
    """The options of a benchmark whose size is a number of `what`."""
    parser = argparse.ArgumentParser()
    parser.add_argument("--exe", default=BUILT)
    parser.add_argument("--" + what, dest="size", type=int, default=size)
    parser.add_argument("--keep")
    parser.add_argument("--times", type=int, default=0)
    return parser.parse_args()


def compared(here, what, size, made, each, bounds):
    """Runs a benchmark over `made(size)` and over half of it, prints what was found, and returns the status to end with.

    `valgrind --tool=callgrind` counts the instructions of the built program, which `./prove` makes, of `plain.rs` (`rustc -O`) and of
    `plain.cob` (`cobc -x -O2`). The reports must be those that `made` works out, byte for byte. So must the packs of the built
    program and of plain Rust, except for the spool's blocks. The status is 1 if they aren't, or if a limit is passed: those of
    `bounds`, and 2.1 times the instructions for twice the work. Without `cobc` the status is 3 if all else is as wanted.

    `--times N` also runs each program N times, by turns, and prints the times."""
    options = arguments(what, size)
    exe = os.path.abspath(options.exe)
    rust, cobol, bureau = Counted("plain Rust", []), Counted("GnuCOBOL", []), Counted("bureau", [])
    with tempfile.TemporaryDirectory() as folder:
        in_rust, in_cobol = plain_rust(here, folder), plain_cobol(here, folder)
        loader = plain_cobol(here, folder, "load") if os.path.exists(os.path.join(here, "load.cob")) else None
        for count in (options.size, options.size // 2):
            work = made(count)
            keep(folder, work.files())
            if options.keep and count == options.size:
                keep(options.keep, work.files())
            rust.counts.append(work.in_rust(in_rust, folder))
            if in_cobol:
                cobol.counts.append(work.in_cobol(in_cobol, loader))
            bureau.counts.append(work.by_bureau(exe, folder))
            if options.times and count == options.size:
                work.tell_times(options.times, exe, in_rust, in_cobol, loader, folder)
    cobol = cobol if cobol.counts else None
    for counted in filter(None, (rust, cobol, bureau)):
        counted.tell(options.size, each)
    return bounds.judge(bureau, rust, cobol)


def keep(folder, files):
    """Leaves files in a folder, which is made where it isn't there."""
    os.makedirs(folder, exist_ok=True)
    for name, kept in files.items():
        with open(os.path.join(folder, name), "wb") as out:
            out.write(kept if isinstance(kept, bytes) else kept.encode())
