"""Many runs at once, into one table. tools/sweep --help says how."""
import argparse
import csv
import itertools
import os
import sys
import threading
from concurrent.futures import ThreadPoolExecutor

import scripts
import studies
from studies import Failed, counts, lookups

ABOUT = """Runs scripts, or the scripts of seeds, over each of some numbers of frames and of some quanta, as many at a time as there are processors,
and writes a CSV file with a row for each run: what it was run with, its status, how many turns were taken, how many commands were
refused and how many lines are `full`, how many processes exited and faulted, and units, lines, hits and misses at its end."""
MORE = """A LIST is numbers and ranges with commas between them: `64`, `3,4,8`, `100-200`, `100-1000:100` for each hundredth.
A script runs in its own folder, with `stats` behind its last line. The rows stand in the order of the words of the call, whichever run
ended first, so the same call gives the same file. How the same runs are done on several machines: docs/GUIDE.md, Many runs at once.

Status: 0 where each run ended with status 0, 1 where one didn't, each of which has a line on standard error, 2 where the words of the
call aren't these."""
COLUMNS = ["script", "seed", "frames", "quantum", "status", "turns", "refused", "full", "exited", "faulted", "units", "limit", "lines", "hits", "misses"]
MOST_RUNS = 10_000_000


def numbers(least, most):
    """The kind of a word that is a LIST of numbers in a range."""
    one = studies.number_of(least, most)

    def found(word):
        parts = []
        for part in word.split(","):
            ends, _, step = part.partition(":")
            first, dash, last = ends.partition("-")
            begin, end = one(first), one(last) if dash else one(first)
            every = studies.number_of(1, most)(step) if step else 1
            if end < begin or step and not dash:
                raise argparse.ArgumentTypeError(f"`{part}` isn't a range")
            parts.append(range(begin, end + 1, every))
        return parts
    return found


def words():
    words = studies.parser("sweep", ABOUT, MORE)
    words.add_argument("-o", "--output", metavar="FILE", default="-", help="the CSV file; standard output where it isn't given")
    words.add_argument("--frames", metavar="LIST", type=numbers(1, 65536), help="the numbers of frames")
    words.add_argument("--quanta", metavar="LIST", type=numbers(1, 10**6), help="the quanta")
    studies.add_program_flags(words)
    words.add_argument("--seeds", metavar="LIST", type=numbers(0, 2**64 - 1), help="the seeds of scripts that the program makes")
    words.add_argument("--reports", metavar="FOLDER", help="keep each report in this folder")
    words.add_argument("--jobs", metavar="N", type=studies.number_of(1, 1024), default=os.cpu_count() or 1, help="how many at a time")
    words.add_argument("--quiet", action="store_true", help="say nothing of how far it is")
    words.add_argument("--program", metavar="FILE", default=scripts.PROGRAM, help="run this program, in place of bin/overlay-run")
    words.add_argument("scripts", metavar="SCRIPT", nargs="*")
    return words


class Run:
    """One run: a script or a seed, and what it is run with; and when it is done, its row of the table and what is wrong with it."""

    def __init__(self, script, seed, frames, quantum, flags):
        self.script, self.seed, self.frames, self.quantum, self.flags = script, seed, frames, quantum, flags
        self.row = self.wrong = None

    @property
    def words(self):
        return ([f"--frames={self.frames}"] * (self.frames is not None) + [f"--quantum={self.quantum}"] * (self.quantum is not None)
                + [f"--make={self.seed}"] * (self.seed is not None) + self.flags)

    @property
    def name(self):
        return " ".join(([self.script] if self.script else []) + self.words)

    def do(self, program, read, reports):
        folder = "." if self.script is None else os.path.dirname(self.script) or "."
        report, status = scripts.run(program, self.words, read.get(self.script, b""), folder)
        if reports is not None:
            with open(os.path.join(reports, self.file_name()), "w", encoding="latin-1") as file:
                file.write("".join(line + "\n" for line in report))
        if status:
            self.wrong = f"status {status}" if status > 0 else f"ended by signal {-status}"
            if status == 5 and report:
                self.wrong += f", {report[-1]}"
            elif status in studies.STATUSES:
                self.wrong += f", {studies.STATUSES[status]}"
        self.row = [self.script or "", text(self.seed), text(self.frames), text(self.quantum), status] + figures_of(report, status)
        return self

    def file_name(self):
        parts = [f"seed-{self.seed}" if self.script is None else self.script.strip("./").replace("/", "-")]
        parts += [f"frames-{self.frames}"] * (self.frames is not None) + [f"quantum-{self.quantum}"] * (self.quantum is not None)
        return "_".join(parts) + ".report"


def text(number):
    return "" if number is None else str(number)


def figures_of(report, status):
    """What a row has of a report."""
    first = [line.split(" ", 1)[0] for line in report]
    turns = sum(int(line.split()[1]) for line in report if line.startswith("ran "))
    found = [turns] + [first.count(word) for word in ("refused", "full", "exited", "faulted")]
    if status or not report or not report[-1].startswith("units "):
        return found + [""] * 5
    units, lines = counts(report[-1])
    return found + [units, int(report[-1].split()[3]), lines, *lookups(report[-1])]


def runs_of(call):
    """All runs of the call, in its order."""
    def each(parts):
        return [None] if parts is None else itertools.chain(*parts)
    sizes = [sum(len(part) for part in parts) for parts in (call.frames, call.quanta, call.seeds) if parts is not None]
    many = max(1, len(call.scripts))
    for size in sizes:
        many *= size
    if many > MOST_RUNS:
        raise Failed(f"these are {many:,} runs; {MOST_RUNS:,} are the most")
    what = [(script, None) for script in call.scripts] if call.scripts else ((None, seed) for seed in each(call.seeds))
    for script, seed in what:
        for frames in each(call.frames):
            for quantum in each(call.quanta):
                yield Run(script, seed, frames, quantum, studies.program_flags(call))


class Progress:
    """How far it is, on one line of a terminal, and a line for each run that failed."""

    def __init__(self, is_shown):
        self.is_shown, self.done, self.failed, self.lock = is_shown, 0, 0, threading.Lock()

    def note(self, run):
        """Counts a run, when it is done."""
        with self.lock:
            self.done += 1
            self.failed += bool(run.wrong)
            if self.is_shown:
                print(f"\r{self.done} done, {self.failed} failed", end="", file=sys.stderr, flush=True)
        return run

    def tell(self, run):
        """Says what is wrong with a run."""
        with self.lock:
            print(f"{self.clear()}sweep: {run.name}: {run.wrong}", file=sys.stderr, flush=True)

    def clear(self):
        return "\r\033[K" if self.is_shown else ""

    def end(self):
        if self.is_shown:
            print(f"\r\033[K{self.done} done, {self.failed} failed", file=sys.stderr)


def main():
    parser = words()
    call = parser.parse_args()
    if bool(call.scripts) == (call.seeds is not None):
        parser.error("either SCRIPT or --seeds is needed" if not call.scripts else "SCRIPT and --seeds don't stand together")
    read = {}
    for script in call.scripts:
        script_text = studies.read(script)
        read[script] = script_text + (b"" if script_text.endswith(b"\n") or not script_text else b"\n") + b"stats\n"
    program = os.path.abspath(call.program)
    scripts.run(program, [], b"", ".")
    if call.reports is not None:
        os.makedirs(call.reports, exist_ok=True)
    progress = Progress(sys.stderr.isatty() and not call.quiet)
    with studies.output(call.output) as file:
        out = csv.writer(file, lineterminator="\n")
        out.writerow(COLUMNS)

        def write(run):
            # what is wrong is said before the row, so that both come in the order of the call, whichever run ended first
            if run.wrong:
                file.flush()
                progress.tell(run)
            out.writerow(run.row)

        with ThreadPoolExecutor(call.jobs) as pool:
            # a few at a time are handed out, so that a sweep of millions of runs holds a few of them
            waiting, runs = [], runs_of(call)
            for run in runs:
                waiting.append(pool.submit(lambda one: progress.note(one.do(program, read, call.reports)), run))
                if len(waiting) >= 8 * call.jobs:
                    write(waiting.pop(0).result())
            for one in waiting:
                write(one.result())
    progress.end()
    if call.output != "-":
        print(f"{call.output}: {progress.done} runs, {progress.failed} failed")
    return 1 if progress.failed else 0


if __name__ == "__main__":
    studies.call("sweep", main)
