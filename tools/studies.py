"""What the tools share beside scripts.py: a script as a study, which can be run again with other commands among or behind its own, and how
a tool's call begins and ends.

A run is deterministic, so what there is behind a command is found by asking: the same commands once more, and then `stats`, `list` and the
like. Each number that a tool shows is one that the program printed, or a difference of two.
"""
import argparse
import contextlib
import os
import re
import sys
from concurrent.futures import ThreadPoolExecutor

import scripts
from scripts import printable

TURNS = ("run", "step", "exec")
# what makes a process of a file
LOADS = ("load", "asm", "exec")
PRINTS = ("list", "stats", "regs", "dump", "disasm", "export")
STATUSES = {1: "there was no memory", 3: "a file isn't there, or can't be read", 4: "the report couldn't be written",
            6: "the script or a file is too long"}


class Failed(Exception):
    """Why a tool can't do what was asked."""


def parser(name, about, more=None):
    """The words of a tool's call, with --help."""
    return argparse.ArgumentParser(prog=f"tools/{name}", description=about, epilog=more, formatter_class=argparse.RawDescriptionHelpFormatter)


def number_of(least, most):
    """The kind of a word that is a number in a range, decimal or hexadecimal as in a script."""
    def number(word):
        found = scripts.number_in(word)
        if found is None or not least <= found <= most:
            raise argparse.ArgumentTypeError(f"`{word}` isn't a number from {least} to {most:,}")
        return found
    return number


def add_program_words(words):
    """The words that say which program runs a script, and where."""
    words.add_argument("--in", dest="folder", metavar="FOLDER", help="run the script in this folder, in place of its own")
    words.add_argument("--program", metavar="FILE", default=scripts.PROGRAM, help="run this program, in place of bin/overlay-run")
    words.add_argument("--frames", metavar="N", help="the program's word: how many frames the machine has")
    words.add_argument("--quantum", metavar="Q", help="the program's word: how many turns a process takes before the next one does")
    add_program_flags(words)


def add_program_flags(words):
    """The words of the program that have no value."""
    words.add_argument("--m", action="store_true", help="the program's word: the machine has multiplication and division")
    words.add_argument("--calls", action="store_true", help="the program's word: processes may speculate by themselves")


def program_flags(call):
    return [f"--{word}" for word in ("m", "calls") if getattr(call, word)]


def program_words(call):
    return [f"--{word}={getattr(call, word)}" for word in ("frames", "quantum") if getattr(call, word) is not None] + program_flags(call)


def call(name, main):
    """Runs a tool's `main`, and ends with its status: a failure is one line on standard error, and never a traceback."""
    try:
        try:
            status, said = main(), None
        except Failed as error:
            status, said = 1, str(error)
        except BrokenPipeError:
            raise
        except OSError as error:
            status, said = 1, f"{error.filename or 'standard output'}: {error.strerror}"
        sys.stdout.flush()
    except KeyboardInterrupt:
        os._exit(130)
    except BrokenPipeError:
        # whoever read standard output has enough, and what is left can't be written any more
        os._exit(141)
    if said:
        print(f"{name}: {said}", file=sys.stderr)
    sys.exit(status)


def read(path):
    """The bytes of a script: a file's, or those of standard input where the name is `-`."""
    if path == "-":
        return sys.stdin.buffer.read()
    with open(path, "rb") as file:
        return file.read()


@contextlib.contextmanager
def output(path):
    """A file to be written, or standard output where the name is `-`."""
    if path == "-":
        yield sys.stdout
        sys.stdout.flush()
    else:
        with open(path, "w", encoding="utf-8", newline="") as file:
            yield file


def folder_of(path):
    """The folder in which a script runs where no other is named."""
    return "." if path == "-" else os.path.dirname(path) or "."


def command(text, number=0):
    return scripts.Line(number, text)


def without_counts(lines):
    """Lines of the report without hits and misses, which nothing else that is printed depends on."""
    return [re.sub(r" hits \d+ misses \d+$", "", line) for line in lines]


def counts(line):
    """Units and lines of a line of `stats`."""
    words = line.split()
    return int(words[1]), int(words[5])


def lookups(line):
    """Hits and misses of a line of `stats`."""
    words = line.split()
    return int(words[7]), int(words[9])


def processes(listed):
    """The processes that a `list` has, and those of them that speculate."""
    rows = [line.split() for line in listed if line.startswith("process ")]
    return [row[1] for row in rows], {row[1] for row in rows if "speculating" in row}


def checkpoints(listed):
    return [line.split()[1] for line in listed if line.startswith("checkpoint ")]


def is_done(answer):
    """Whether a command wasn't refused, and wasn't `full`."""
    return bool(answer) and not answer[0].startswith("refused ") and not re.match(r"full \d+ \d+$", answer[0])


def in_parallel(work, items, workers=None):
    """What `work` gives of each item, in order; several at a time, each of which waits for a run of the program."""
    with ThreadPoolExecutor(workers or min(8, os.cpu_count() or 1)) as pool:
        return list(pool.map(work, items))


class Study:
    """A script with its commands, and runs of it with commands of other kinds among them."""

    def __init__(self, lines, folder, program=scripts.PROGRAM, words=(), name="SCRIPT", answered=None):
        self.lines, self.folder, self.program, self.words, self.name = lines, folder, os.path.abspath(program), list(words), name
        self.commands = [line for line in lines if line.has_command]
        if len(lines) > scripts.MOST_SCRIPT_LINES or sum(len(line.text) + 1 for line in lines) > scripts.MOST_SCRIPT_BYTES + 1:
            raise Failed("the script is longer than a script may be, so nothing of it is done: status 6")
        for line in self.commands:
            if line.form() is None:
                raise Failed(f"line {line.number} of the script isn't a command: tools/check-script {name} says more")
        self.answers, self.status = answered or self.run(self.commands)
        self.ended = next((k for k, lines in enumerate(self.answers) if not lines), len(self.commands))
        if self.status == 0 and self.ended < len(self.commands):
            raise Failed("the report has fewer lines than the commands: is this the program of these sources?")

    @classmethod
    def of_call(cls, call, until=None):
        """The study of a call with the words of add_program_words and SCRIPT."""
        lines = scripts.lines_of(read(call.script))[:until]
        folder = call.folder or folder_of(call.script)
        return cls(lines, folder, call.program, program_words(call), call.script)

    def run(self, commands, words=None):
        """The lines of the report for each of some commands, and the status."""
        text = "".join(line.text + "\n" for line in commands).encode("latin-1")
        if len(text) > scripts.MOST_SCRIPT_BYTES or len(commands) > scripts.MOST_SCRIPT_LINES:
            raise Failed("with further commands the script is longer than a script may be; a shorter front of it may do")
        report, status = scripts.run(self.program, self.words if words is None else words, text, self.folder)
        if status == 2:
            raise Failed(f"the program doesn't take these words: {' '.join(self.words)}")
        if status < 0:
            raise Failed(f"the program was ended by signal {-status}")
        return scripts.split(commands, report), status

    def cut_short(self):
        """Where and why the report ends before the script, or None."""
        if self.status == 0:
            return None
        line = self.commands[self.ended] if self.ended < len(self.commands) else None
        text = f"`{printable(line.text.strip())[:60]}`" if line else ""
        where = f"before line {line.number}, {text}" if line and line.number else f"before {text}" if line else "behind the last command"
        return f"the report ends {where}: status {self.status}, {STATUSES.get(self.status, 'which is none of the program')}"

    def whole(self):
        """This study, where its report is whole."""
        if self.cut_short():
            raise Failed(self.cut_short())
        return self

    def with_each(self, added):
        """A run with further commands behind each command, `added` of its place; for each command its own lines and those of the
        further ones."""
        done, commands = self.commands[:self.ended], []
        for k, line in enumerate(done):
            commands += [line] + added(k)
        answers, _ = self.run(commands)
        found, at = [], 0
        for k in range(len(done)):
            count = 1 + len(added(k))
            found.append((answers[at], answers[at + 1:at + count]))
            at += count
        for k, (own, _) in enumerate(found):
            if without_counts(own) != without_counts(self.answers[k]):
                raise Failed(f"line {done[k].number} of the script is answered otherwise in a run with further commands")
        return found

    def measured(self):
        """Behind each command: the units, the lines, and the processes and checkpoints as `list` has them."""
        return [(*counts(stats), listed) for stats, listed in self.told()]

    def told(self):
        """Behind each command: the line of `stats`, and the lines of `list`."""
        if not hasattr(self, "_told"):
            found = self.with_each(lambda k: [command("stats"), command("list")])
            if any(len(more) < 2 or not more[1] for _, more in found):
                raise Failed("the report of a run with further commands ends early")
            self._told = [(stats[0], listed) for _, (stats, listed) in found]
        return self._told
