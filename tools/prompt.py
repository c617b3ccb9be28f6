"""A prompt over the commands of a script. tools/prompt --help says how."""
import os
import sys

import check_script
import scripts
import studies
import symbols
from studies import Failed, command, printable, processes

ABOUT = """A prompt over the commands of a script, of which each is answered at once: the program runs all commands so far once more, which gives the
same report. Names stand for addresses and registers as in tools/named. With SCRIPT its commands are done first. A dialogue may come
through a pipe too."""
HELP = """beside the commands of a script:
  undo [N], redo [N]     take back the last command, or the last N; do it again
  until PLACE [P]        turns of P until its pc is PLACE, an address or a name
  finish [P]             turns of P until the function that it is in has returned
  back N                 N turns backwards: as if the last N turns hadn't been taken
  watch ADDR LEN [P]     turns of P until one of these bytes isn't as it is now: the turn is found by halving, so of bytes that change and
                         change back it may be a later one
  where [P]              where P is: pc and sp, with names
  script, report         what was done so far; what the program said of it
  save FILE              the commands as a script, which gives the same report
  help, quit             this; end
Without P it is the process that was named last, or the lowest."""
MORE = """The words of the prompt, """ + HELP.lstrip() + """

Status: 0 at the end, 1 where a line of a dialogue from a pipe couldn't be done, 2 where the words of the call aren't these."""
OWN_WORDS = ("undo", "redo", "until", "finish", "back", "watch", "where", "script", "report", "save", "help", "quit", "exit")
MOST_TURNS = 10_000_000
# how many breakpoints `finish` passes in one run, and how many in all
HITS_AT_ONCE, MOST_HITS = 200, 20_000
STACK_WORDS = 128


def words():
    words = studies.parser("prompt", ABOUT, MORE)
    words.add_argument("--symbols", metavar="FOLDER", help="where files of the same names stand that weren't stripped")
    words.add_argument("--history", metavar="FILE", help="a file that keeps the lines that were typed")
    studies.add_program_words(words)
    words.add_argument("script", metavar="SCRIPT", nargs="?", help="commands that are done first")
    return words


class Session:
    """The commands so far, with what was answered, and those before each change, to go back to."""

    def __init__(self, folder, program, how, names):
        self.folder, self.program, self.how, self.names = folder, program, how, names
        self.commands, self.past, self.future = [], [], []
        self.reader, self.last_process = symbols.Reader(names), None
        self.saved = None
        self.answers = []

    def asked(self, commands):
        """The answers to these commands, whatever was done before."""
        study = studies.Study(commands, self.folder, self.program, self.how, "-")
        if study.cut_short():
            raise Failed(study.cut_short())
        return study.answers

    def probe(self, texts):
        """The answers to further commands, which aren't kept."""
        return self.asked(self.commands + [command(text) for text in texts])[len(self.commands):]

    def become(self, commands):
        """Takes other commands, where the program does them."""
        answers = self.asked(commands)
        self.past.append(self.commands)
        self.future = []
        self.commands, self.answers = commands, answers

    def move(self, count, here, there):
        for _ in range(count):
            if not here:
                raise Failed("there is nothing more to go to")
            there.append(self.commands)
            self.commands = here.pop()
        self.answers = self.asked(self.commands)

    def add(self, texts):
        """Does further commands, and shows their answers."""
        before = len(self.commands)
        self.become(self.commands + [command(text) for text in texts])
        self.show(before)

    def show(self, begin):
        for line, answer, owners in self.followed():
            if begin <= 0:
                for text in answer:
                    print(self.named(text, line, owners))
            begin -= 1

    def named(self, text, line, owners):
        try:
            return self.reader.line(text, line, owners)
        except (Failed, OSError):
            return text

    def followed(self):
        owners = symbols.Owners(self.folder)
        for line, answer in zip(self.commands, self.answers):
            owners.follow(line, answer)
            yield line, answer, owners

    def owners(self):
        found = symbols.Owners(self.folder)
        for line, answer in zip(self.commands, self.answers):
            found.follow(line, answer)
        return found

    def files(self):
        return [line.words[1] for line in self.commands if line.words[0] in ("load", "exec")]

    def resolved(self, line):
        """A line with addresses for its names; those of the process's own file come first."""
        if not symbols.named_words(line):
            return line
        file = self.owners().file_of(scripts.number_in(line.words[1]))
        return symbols.with_addresses(line, self.names, [file] if file else self.files())

    def address(self, word, process):
        number = scripts.number_in(word)
        if number is not None:
            return number
        file = self.owners().file_of(process)
        found = self.names.address(word, [file] if file else self.files())
        if found is None:
            raise Failed(f"`{word}` is neither an address nor a name")
        return found

    def process(self, word=None):
        """The process that is meant: the one that is named, or was named last, or the lowest."""
        numbers = processes(self.probe(["list"])[0])[0]
        if word is not None:
            number = scripts.number_in(word)
            if number is None or str(number) not in numbers:
                raise Failed(f"there is no process `{word}`")
            self.last_process = str(number)
        if self.last_process in numbers:
            return self.last_process
        if not numbers:
            raise Failed("there is no process")
        return numbers[0]

    def registers(self, process):
        return registers_of(self.probe([f"regs {process}"])[0])

    # ---- words of the prompt

    def until(self, place, process=None):
        process = self.process(process)
        address = self.address(place, process)
        _, answer = self.probe([f"break {process} {address:#x}", f"step {process} {MOST_TURNS}"])
        taken = turns_of(answer)
        if taken is None:
            raise Failed(answer[0])
        if not (answer[-1].endswith(" break") and answer[-2] == f"break {process} {address:#x}"):
            print(f"process {process} doesn't come to {address:#x}: {answer[-1]}")
            return
        self.add([f"step {process} {taken}"])
        self.where(process)

    def where(self, process=None):
        process = self.process(process)
        values = self.registers(process)
        file = self.owners().file_of(process)
        try:
            place = self.reader.place(values["pc"], file)
        except (Failed, OSError):
            place = ""
        print(f"process {process}: pc {values['pc']:#x}{'  ' + place if place else ''}, sp {values['x2']:#x}")

    def back(self, count):
        """As if the last turns hadn't been taken: the last commands of turns become shorter, or go."""
        left, commands, answers = count, list(self.commands), list(self.answers)
        while left and commands:
            line, answer = commands.pop(), answers.pop()
            taken = turns_of(answer)
            if not taken:
                if line.words[0] == "exec" and taken is not None:
                    commands.append(command(f"load {line.words[1]}"))
                    answers.append(answer[:1])
                continue
            kept = max(0, taken - left)
            left -= min(left, taken)
            if kept:
                commands.append(command(" ".join(line.words[:-1] + [str(kept)])))
            elif line.words[0] == "exec":
                commands.append(command(f"load {line.words[1]}"))
        if left:
            raise Failed(f"only {count - left} turns were taken")
        self.become(commands)
        print(f"{count} turns back; {len(self.commands)} commands are left")
        self.where()

    def watch(self, place, length, process=None):
        process = self.process(process)
        address, size = self.address(place, process), scripts.number_in(length)
        if size is None:
            raise Failed(f"`{length}` isn't how many bytes")
        dump = f"dump {process} {address:#x} {size}"
        now = self.probe([dump])[0]
        if now[0].startswith("refused "):
            raise Failed(now[0])

        def differs(turns):
            answer, found = self.probe([f"step {process} {turns}", dump])
            if turns_of(answer) is None:
                raise Failed(answer[0])
            return found != now, turns_of(answer)

        same, other = 0, 1
        while True:
            changed, taken = differs(other)
            if changed:
                break
            if taken < other or other == MOST_TURNS:
                print(f"the bytes don't change within {taken} turns of process {process}")
                return
            same, other = other, min(2 * other, MOST_TURNS)
        while other - same > 1:
            middle = (same + other) // 2
            same, other = (same, middle) if differs(middle)[0] else (middle, other)
        before = self.probe([f"step {process} {same}", f"regs {process}"])[1] if same else self.probe([f"regs {process}"])[0]
        print(f"turn {other} from here changes them: the instruction at {registers_of(before)['pc']:#x}{self.placed(registers_of(before)['pc'], process)}")
        for row in now:
            print(f"  before  {row}")
        self.add([f"step {process} {other}"])
        for row in self.probe([dump])[0]:
            print(f"  after   {row}")

    def placed(self, address, process):
        try:
            place = self.reader.place(address, self.owners().file_of(process))
        except (Failed, OSError):
            return ""
        return f", {place}" if place else ""

    def finish(self, process=None):
        """Breakpoints where the function may return to, and turns until one is reached with the function's part of the stack given up."""
        process = self.process(process)
        values = self.registers(process)
        function = self.function(values["pc"], process)
        places = self.returns(process, values)
        if not places:
            raise Failed("neither ra nor the stack has an address that a call returns to")
        breaks = [f"break {process} {place:#x}" for place in places]
        turns = []
        while len(turns) < MOST_HITS:
            more = [f"step {process} {sum(turns)}"] if turns else []
            answers = self.probe(breaks + more + [f"step {process} {MOST_TURNS}", f"regs {process}"] * HITS_AT_ONCE)
            hits = answers[len(breaks) + len(more):]
            for answer, registers in zip(hits[::2], hits[1::2]):
                if turns_of(answer) is None or not answer[-1].endswith(" break"):
                    print(f"process {process} doesn't return: {answer[-1]}")
                    return
                turns.append(turns_of(answer))
                found = registers_of(registers)
                outside = self.function(found["pc"], process) != function or found["pc"] == values["x1"] and function is None
                if found["x2"] > values["x2"] or outside and found["x2"] == values["x2"]:
                    if sum(turns) > MOST_TURNS:
                        raise Failed("the function takes more turns than a `step` may")
                    self.add([f"step {process} {sum(turns)}"])
                    print(f"returned; a0 is {found['x10']:#x}")
                    self.where(process)
                    return
            if sum(turns) > MOST_TURNS:
                break
        print("the function doesn't return soon")

    def function(self, address, process):
        try:
            file = self.owners().file_of(process)
            name = self.names.of(file).name_of(address) if file else None
        except (Failed, OSError):
            return None
        return name.split("+")[0] if name else None

    def returns(self, process, values):
        """Addresses behind calls, in ra and on the top of the stack."""
        words = [values["x1"]]
        rows = self.probe([f"dump {process} {values['x2'] + 8 * k:#x} 8" for k in range(STACK_WORDS)])
        for row in rows:
            if not row[0].startswith("refused "):
                words.append(int.from_bytes(bytes.fromhex("".join(row[0].split()[1:])), "little"))
        words = [word for word in dict.fromkeys(words) if 4 <= word < 2**38 and word % 4 == 0]
        calls = self.probe([f"disasm {process} {word - 4:#x} 1" for word in words])
        return [word for word, answer in zip(words, calls) if answer[0].split(" ", 2)[-1].startswith(("jal x1,", "jalr x1,"))]

    def save(self, file):
        if os.path.exists(file) and file != self.saved:
            raise Failed(f"{file} is there already")
        with open(file, "w", encoding="latin-1") as out:
            out.write("".join(line.text + "\n" for line in self.commands))
        self.saved = file
        print(f"{file}: {len(self.commands)} commands")

    # ---- a line

    def do(self, text):
        """Does a line; answers whether the session goes on."""
        line = command(text)
        if not line.has_command:
            return True
        first, rest = line.words[0], line.words[1:]
        known = {("until", 1): self.until, ("until", 2): self.until, ("finish", 0): self.finish, ("finish", 1): self.finish, ("where", 0): self.where,
                 ("where", 1): self.where, ("watch", 2): self.watch, ("watch", 3): self.watch, ("save", 1): self.save}
        if first in ("quit", "exit") and not rest:
            return False
        if first == "help" and not rest:
            print(HELP)
        elif first == "script" and not rest:
            for number, done in enumerate(self.commands, 1):
                print(f"{number:4}  {printable(done.text)}")
        elif first == "report" and not rest:
            for answer in self.answers:
                print("\n".join(answer))
        elif first in ("undo", "redo", "back") and len(rest) <= 1:
            self.counted(first, rest)
        elif (first, len(rest)) in known:
            known[first, len(rest)](*rest)
        elif first in OWN_WORDS:
            raise Failed(f"`{first}` isn't followed by these words; `help` says more")
        else:
            self.do_command(line)
        return True

    def counted(self, first, rest):
        count = scripts.number_in(rest[0]) if rest else 1
        if not count:
            raise Failed(f"`{rest[0]}` isn't how many")
        if first == "back":
            self.back(count)
        else:
            self.move(count, *((self.past, self.future) if first == "undo" else (self.future, self.past)))
            print(f"{len(self.commands)} commands" + (f"; the last is `{printable(self.commands[-1].text)}`" if self.commands else ""))

    def do_command(self, line):
        line = self.resolved(line)
        if line.form() is None:
            _, what = check_script.outside(line)
            raise Failed(printable(what))
        if line.form()[1][:1] == ["process_word"]:
            self.last_process = str(scripts.number_in(line.words[1]))
        self.add([" ".join(line.words)])


def turns_of(answer):
    """How many turns an answer says were taken, or None."""
    return int(answer[-1].split()[1]) if answer and answer[-1].startswith("ran ") else None


def registers_of(answer):
    return {row.split()[0]: int(row.split()[1], 16) for row in answer[1:]}


def completions(session, before, text):
    """The words that may stand where the cursor is."""
    if not before.split():
        return sorted(set(OWN_WORDS) | {first for first, _ in scripts.FORMS})
    first, place = before.split()[0], len(before.split()) - 1
    kinds = {form[1][place] for form in scripts.FORMS if form[0] == first and place < len(form[1])}
    if "file_word" in kinds or first == "save":
        folder, name = os.path.split(text)
        there = os.path.join(session.folder, folder)
        return [os.path.join(folder, entry) for entry in (sorted(os.listdir(there)) if os.path.isdir(there) else [])]
    if "register_word" in kinds:
        return sorted(symbols.REGISTERS) + ["pc"]
    if "checkpoint_word" in kinds:
        return studies.checkpoints(session.probe(["list"])[0])
    return session.names.all_names(session.files())


def with_editing(session, history):
    """Editing, history and completion of lines, where Python has readline."""
    try:
        import readline
    except ImportError:
        return
    found = []

    def complete(text, state):
        if state == 0:
            try:
                found[:] = [word + " " for word in completions(session, readline.get_line_buffer()[:readline.get_begidx()], text) if word.startswith(text)]
            except (Failed, OSError):
                found[:] = []
        return found[state] if state < len(found) else None

    readline.set_completer(complete)
    readline.set_completer_delims(" \t")
    readline.parse_and_bind("tab: complete")
    if history:
        import atexit
        if os.path.exists(history):
            readline.read_history_file(history)
        atexit.register(readline.write_history_file, history)


def lines(is_typed):
    """The lines of the dialogue: typed ones behind a prompt, those of a pipe shown as if they were."""
    while True:
        try:
            text = input("> ") if is_typed else sys.stdin.readline()
        except EOFError:
            text = ""
            if is_typed:
                print()
                return
        except KeyboardInterrupt:
            print()
            continue
        if not is_typed:
            if not text:
                return
            text = text.rstrip("\r\n")
            print(f"> {printable(text)}")
        yield text


def talk(session, is_typed):
    status = 0
    for text in lines(is_typed):
        try:
            if not session.do(text):
                break
        except (Failed, OSError) as error:
            said = f"{error.filename}: {error.strerror}" if isinstance(error, OSError) else error
            print(f"? {said}")
            status = 0 if is_typed else 1
        except KeyboardInterrupt:
            if not is_typed:
                raise
            print("(interrupted)")
        sys.stdout.flush()
    return status


def main():
    call = words().parse_args()
    folder = call.folder or (studies.folder_of(call.script) if call.script else ".")
    session = Session(folder, call.program, studies.program_words(call), symbols.Names(folder, call.symbols))
    if call.script:
        for line in scripts.lines_of(studies.read(call.script)):
            if line.has_command:
                if symbols.named_words(line):
                    session.answers = session.asked(session.commands)
                    line = session.resolved(line)
                session.commands.append(line)
        session.answers = session.asked(session.commands)
        session.show(0)
    is_typed = sys.stdin.isatty()
    if is_typed:
        with_editing(session, call.history)
    return talk(session, is_typed)


if __name__ == "__main__":
    studies.call("prompt", main)
