"""Which lines of which pages are overlaid behind a command of a script, and which pages name which frame: found by asking the program.

The commands up to there are run again over frames that suffice, without those that were `full` and with as many turns as were taken, and
then asked further. `promote` of a page takes its own lines away, so the fall of `lines` is how many it had. A `poke` of the byte that is there
adds a line exactly where it wasn't overlaid, if the page's frame is shared, as it is behind a `checkpoint`. A page that gets its 32nd line
may be settled, by a program that does so: then `lines` falls, and `restore` brings the page back before the next is asked. A speculating
process is never settled, and all that is stored into it goes into overlays. `unmap` of a page gives a frame's units back exactly where
no other page names it. A page that can't be written has own lines where an image or a `dedup` gave it some; it is asked in a copy of its
space, an `import` that gives no line, in which each page can be written.
"""
import os
import tempfile

import elf
import images
import scripts
import studies
from images import LINE, LINES, PAGE
from studies import LOADS, Failed, command, counts, is_done

STACK_PAGES, STACK_BOTTOM = 16, 2**38 - 16 * 4096
# where the words of an assembled text begin
TEXT_BEGIN = 0x10078
FRAME_UNITS = 16
# an overlay of so many lines becomes a page, where the program has it so and the process doesn't speculate
SETTLED_AT = 32
MOST_FRAMES = 65536
# what a run may have beside the script's own commands, a little below what a script may have
MOST_ASKED_BYTES = scripts.MOST_SCRIPT_BYTES - 4096


def overlay_units(lines):
    """The units of an overlay with so many lines."""
    return 0 if lines == 0 else next(units for most, units in ((3, 1), (7, 2), (15, 4), (31, 8), (64, 16)) if lines <= most)


class Page:
    """A page of a space: its permissions as they are written in a script, its own lines, and its frame: None where not asked, 0 for zeros."""

    def __init__(self, perms):
        self.perms, self.own, self.frame = perms, frozenset(), None

    @property
    def is_writable(self):
        return "w" in self.perms


class Space:
    """A process or a checkpoint, with its pages by number. `asked_as` is the process that is asked in its place, and `writable_copy` the
    checkpoint to which it is taken for pages that can't be written."""

    def __init__(self, name, pages, speculating, process=None):
        self.name, self.pages, self.speculating = name, pages, speculating
        self.process = self.asked_as = process
        self.writable_copy = None

    @property
    def is_checkpoint(self):
        return self.process is None

    @property
    def lines(self):
        return sum(len(page.own) for page in self.pages.values())


def file_pages(path):
    """The permissions of each page that a loaded file gives its process, the stack's among them."""
    try:
        with open(path, "rb") as file:
            segments = elf.segments(file.read())
    except elf.NotElf as error:
        raise Failed(f"{path}: {error}") from None
    flags = {}
    for segment in segments:
        for page in range(segment.address // PAGE, (segment.address + segment.size - 1) // PAGE + 1):
            flags.setdefault(page, set()).update(segment.perms | ({4} if 2 in segment.perms else set()))
    pages = {page: images.permissions(sum(bits)) for page, bits in flags.items()}
    return {**pages, **stack_pages()}


def stack_pages():
    return {page: "rw" for page in range(STACK_BOTTOM // PAGE, STACK_BOTTOM // PAGE + STACK_PAGES)}


def text_pages(count):
    """The permissions of each page of a process that was assembled, which are so many with the stack's."""
    return {**{TEXT_BEGIN // PAGE + page: "rwx" for page in range(count - STACK_PAGES)}, **stack_pages()}


class Layouts:
    """The pages of each process and each checkpoint, followed along a script by what it was answered."""

    def __init__(self, folder):
        self.folder, self.processes, self.kept, self.files = folder, {}, {}, {}

    def of_file(self, name):
        if name not in self.files:
            self.files[name] = file_pages(os.path.join(self.folder, name))
        return dict(self.files[name])

    def follow(self, line, answer):
        if not is_done(answer):
            return
        first, rest, said = line.words[0], line.words[1:], answer[0].split()
        process = str(scripts.number_in(rest[0])) if rest and scripts.number_in(rest[0]) is not None else None
        if first in ("load", "exec"):
            self.processes[said[1]] = self.of_file(rest[0])
        elif first == "asm":
            self.processes[said[1]] = text_pages(int(said[3]))
        elif first == "fork":
            self.processes[said[2]] = dict(self.processes[said[1]])
        elif first == "checkpoint":
            self.kept[rest[1]] = dict(self.processes[process])
        elif first == "import":
            image = images.image_in(os.path.join(self.folder, rest[2]))
            self.kept[rest[0]] = {number: page.perms for number, page in image.pages.items()}
        elif first == "restore":
            self.processes[process] = dict(self.kept[rest[1]])
        elif first == "forget":
            del self.kept[rest[0]]
        elif first == "drop":
            del self.processes[process]
        elif first in ("map", "unmap"):
            begin = scripts.number_in(rest[1]) // PAGE
            for page in range(begin, begin + scripts.number_in(rest[2])):
                if first == "map":
                    self.processes[process][page] = rest[3]
                else:
                    del self.processes[process][page]

    def spaces(self, listed):
        """The spaces that a `list` has, in its order."""
        found = []
        for words in (line.split() for line in listed[1:]):
            if words[0] == "process":
                pages, name = self.processes.get(words[1], {}), f"process {words[1]}"
                space = Space(name, {}, "speculating" in words, words[1])
            else:
                pages = self.kept.get(words[1], {})
                space = Space(f"checkpoint {words[1]}", {}, False)
            if len(pages) != int(words[-1]):
                raise Failed(f"{space.name} has {words[-1]} pages, and {len(pages)} were followed along the script")
            space.pages = {page: Page(perms) for page, perms in sorted(pages.items())}
            found.append(space)
        return found


def listed_pages(listed):
    """How many pages all processes and checkpoints of a `list` have."""
    return sum(int(line.split()[-1]) for line in listed[1:])


def without_full(commands, answers):
    """The same commands without those that were `full`, and with as many turns as were taken before an instruction was."""
    found = []
    for line, answer in zip(commands, answers):
        if answer and answer[0].startswith("full ") and len(answer[0].split()) == 3:
            continue
        if answer and answer[-1].startswith("ran ") and answer[-1].endswith(" full"):
            taken = answer[-1].split()[1]
            if taken != "0":
                found.append(command(" ".join(line.words[:-1] + [taken])))
            elif line.words[0] == "exec":
                found.append(command(f"load {line.words[1]}"))
            continue
        found.append(line)
    return found


class State:
    """What there is behind the first so many commands of a study, ready to be asked."""

    def __init__(self, study, count):
        self.study, self.count = study, count
        done, answers = study.commands[:count], study.answers[:count]
        self.commands = without_full(done, answers)
        self.size = sum(len(line.text) + 1 for line in self.commands)
        if count:
            stats, listed = study.told()[count - 1]
        else:
            stats, listed = "units 16 of 0 lines 0 hits 0 misses 0", ["list 0 0"]
        self.units, self.lines = counts(stats)
        layouts = Layouts(study.folder)
        for line, answer in zip(done, answers):
            layouts.follow(line, answer)
        self.spaces = layouts.spaces(listed)
        # what may give own lines to pages that can't be written
        self.lines_anywhere = any(line.words[0] in ("import", "dedup") and is_done(answer) for line, answer in zip(done, answers))
        self.loads_done = [(line, answer) for line, answer in zip(done, answers) if line.words[0] in LOADS and is_done(answer)]
        self.listed = listed
        self.words = [word for word in study.words if not word.startswith("--frames")] + [f"--frames={self.frames()}"]
        names = {word for line in done for word in line.words}
        self.prefix = "asked-"
        while any(name.startswith(self.prefix) for name in names):
            self.prefix += "-"

    def frames(self):
        """Frames that suffice: one more than twice as many as there are pages. Beside those that there were at most there are those of the
        processes that stand for checkpoints, those of the checkpoints that processes are taken back to, and those of copies."""
        most = max((listed_pages(listed) for _, listed in self.study.told()[:self.count]), default=0)
        stand_ins = [space for space in self.spaces if space.is_checkpoint]
        loaded = max((int(answer[0].split()[3]) for _, answer in self.loads_done[:1]), default=0)
        there = sum(len(space.pages) for space in self.spaces) * (2 if self.lines_anywhere else 1)
        return min(MOST_FRAMES, 1 + 2 * (most + there + len(stand_ins) * loaded))

    def ask(self, asked):
        """The answers to further commands."""
        if not asked:
            return []
        answers, status = self.study.run(self.commands + [command(text) for text in asked], self.words)
        found = answers[len(self.commands):]
        if status or not all(found):
            raise Failed(f"further commands aren't all answered: status {status}")
        return found

    def ask_groups(self, before, groups):
        """The answers to groups of commands, each of which stands for itself behind the same commands before them; in as many runs as are needed."""
        most_lines = scripts.MOST_SCRIPT_LINES - len(self.commands) - len(before)
        most_bytes = MOST_ASKED_BYTES - self.size - sum(len(text) + 1 for text in before)
        batches, lines, size = [[]], 0, 0
        for group in groups:
            group_size = sum(len(text) + 1 for text in group)
            if batches[-1] and (lines + len(group) > most_lines or size + group_size > most_bytes):
                batches.append([])
                lines = size = 0
            batches[-1].append(group)
            lines, size = lines + len(group), size + group_size
        found = []
        for batch in batches:
            answers = iter(self.ask(before + [text for group in batch for text in group])[len(before):])
            found += [[next(answers) for _ in group] for group in batch]
        return found

    def name_stand_ins(self):
        """Gives each checkpoint a process to be asked in its place, and checks that the state is the one that is asked for."""
        kept = [space for space in self.spaces if space.is_checkpoint]
        line = self.loads_done[0][0] if kept else None
        loads = [f"{'asm' if line.words[0] == 'asm' else 'load'} {line.words[1]}"] * len(kept) if kept else []
        if not kept and len(self.commands) == self.count and self.spaces:
            return loads
        answers = self.ask(["stats", "list"] + loads)
        if counts(answers[0][0]) != (self.units, self.lines) or answers[1] != self.listed:
            raise Failed("over more frames the script comes to another state")
        for space, answer in zip(kept, answers[2:]):
            if not is_done(answer):
                raise Failed(f"{space.name} can't be asked: {answer[0]}")
            space.asked_as = answer[0].split()[1]
        return loads

    def find_lines(self):
        """Finds the own lines of each page of each space."""
        self.loads = self.name_stand_ins()
        before = self.loads + [f"restore {space.asked_as} {space.name.split()[1]}" for space in self.spaces if space.is_checkpoint]
        before += [f"checkpoint {space.process} {self.undo(space)}" for space in self.spaces if not space.is_checkpoint and not space.speculating]
        pages = self.counted(before)
        bytes_there = self.bytes_of(before, pages)
        with tempfile.TemporaryDirectory() as folder:
            before += self.copies(pages, folder)
            for (space, page, _), groups in zip(pages, self.asked_lines(before, pages, bytes_there)):
                space.pages[page].own = groups
        if sum(space.lines for space in self.spaces) != self.lines:
            raise Failed(f"{sum(space.lines for space in self.spaces)} own lines were found, and `stats` has {self.lines}")

    def undo(self, space):
        """The name under which a space is kept, to be taken back to."""
        return space.name.split()[1] if space.is_checkpoint else f"{self.prefix}{space.process}"

    def counted(self, before):
        """The pages whose lines are to be asked one by one, with how many own lines each has; of a speculating process that isn't known."""
        found = [(space, page, None) for space in self.spaces if space.speculating for page, there in space.pages.items() if there.is_writable]
        asked = [(space, page) for space in self.spaces if not space.speculating for page, there in space.pages.items()
                 if there.is_writable or self.lines_anywhere]
        groups = [["stats", f"promote {space.asked_as} {page * PAGE:#x}", "stats"] for space, page in asked]
        for (space, page), answers in zip(asked, self.ask_groups(before, groups)):
            if answers[1] != ["ok"]:
                raise Failed(f"`promote` of {space.name} is answered {answers[1][0]}")
            lines = counts(answers[0][0])[1] - counts(answers[2][0])[1]
            if lines == LINES:
                space.pages[page].own = frozenset(range(LINES))
            elif lines:
                found.append((space, page, lines))
        return found

    def copies(self, pages, folder):
        """Commands that make copies of the spaces with own lines in pages that can't be written. Their files stand in a folder."""
        found, number = [], 0
        for space, page, _ in pages:
            if not space.pages[page].is_writable and space.writable_copy is None:
                number += 1
                space.writable_copy, path = f"{self.prefix}copy-{number}", os.path.join(folder, f"{number}.img")
                with open(path, "w", encoding="latin-1") as file:
                    file.write("".join(line + "\n" for line in images.written(images.without_lines(space.pages))))
                found.append(f"import {space.writable_copy} {self.undo(space)} {path}")
        return found

    def bytes_of(self, before, pages):
        """The first byte of each line of some pages."""
        groups = [[f"dump {space.asked_as} {page * PAGE + LINE * line:#x} 1" for line in range(LINES)] for space, page, _ in pages]
        return [[answer[0].split()[1] for answer in answers] for answers in self.ask_groups(before, groups)]

    def asked_lines(self, before, pages, bytes_there):
        """The own lines of some pages, each line asked by a `poke` of the byte that is there."""
        groups = []
        for (space, page, count), there in zip(pages, bytes_there):
            each = LINES if count is None or count >= SETTLED_AT else max(1, SETTLED_AT - 1 - count)
            group, kept = ["stats"], self.undo(space)
            if not space.pages[page].is_writable:
                kept = space.writable_copy
                group += [f"restore {space.asked_as} {kept}", "stats"]
            for line in range(LINES):
                group += [f"poke {space.asked_as} {page * PAGE + LINE * line:#x} {there[line]}", "stats"]
                if not space.speculating and line % each == each - 1:
                    group += [f"restore {space.asked_as} {kept}", "stats"]
            if not space.speculating:
                group += [f"restore {space.asked_as} {self.undo(space)}", "stats"]
            groups.append(group)
        return [self.own_lines(group, answers) for group, answers in zip(groups, self.ask_groups(before, groups))]

    @staticmethod
    def own_lines(group, answers):
        lines, own = counts(answers[0][0])[1], set()
        for asked, answer, stats in zip(group[1::2], answers[1::2], answers[2::2]):
            now = counts(stats[0])[1]
            words = asked.split()
            if words[0] == "poke":
                if answer != ["ok"] and not answer[0].startswith("full "):
                    raise Failed(f"`{asked}` is answered {answer[0]}")
                if answer == ["ok"] and now == lines:
                    own.add(int(words[2], 16) // LINE % LINES)
            elif answer != ["ok"]:
                raise Failed(f"`{asked}` is answered {answer[0]}")
            lines = now
        return frozenset(own)

    def find_frames(self, known=None):
        """Finds which pages name which frame, by a run for each space that isn't in `known`, which has the frames of others by the name of
        the space and the page. It needs the own lines. A frame has a number from 1, and the zero frame is 0."""
        self.as_processes = self.loads + [f"discard {space.process}" for space in self.spaces if space.speculating]
        for space in self.spaces:
            if space.is_checkpoint:
                self.as_processes += [f"restore {space.asked_as} {self.undo(space)}", f"forget {self.undo(space)}"]
        known = known or {}
        numbers = [frame for pages in known.values() for frame in pages.values()]
        self.last_frame = max(numbers, default=0)
        asked = [k for k, space in enumerate(self.spaces) if space.name not in known]
        for k, space in enumerate(self.spaces):
            for page, there in space.pages.items():
                there.frame = known[space.name][page] if k not in asked else None
        for k in asked:
            self.find_frames_of(k)
        self.check_units()

    def find_frames_of(self, k):
        """Finds the frames of a space among those of the others that are known. Of each frame that is known one page is given up behind
        all others, and then the page that is asked about: where it names that frame, the frame is given back with it and not before."""
        holders, orders = {}, {}
        for other, space in enumerate(self.spaces):
            if other != k:
                for page, there in space.pages.items():
                    if page in self.spaces[k].pages:
                        holders.setdefault(page, {}).setdefault(there.frame, []).append(other)
        for page in self.spaces[k].pages:
            named = {frame: those for frame, those in holders.get(page, {}).items() if frame}
            first = [other for frame, those in holders.get(page, {}).items() for other in (those[:-1] if frame else those)]
            orders[page] = (first, {those[-1]: frame for frame, those in named.items()})
        given = self.gives_back({page: first + list(last) + [k] for page, (first, last) in orders.items()})
        for page, (_, last) in orders.items():
            kept = [frame for other, frame in last.items() if other not in given[page]]
            if k in given[page] and not kept:
                self.last_frame += 1
                kept = [self.last_frame]
            if len(kept) > 1 or bool(kept) != (k in given[page]):
                raise Failed(f"the frame of page {page * PAGE:#x} of {self.spaces[k].name} isn't found")
            self.spaces[k].pages[page].frame = kept[0] if kept else 0

    def gives_back(self, orders):
        """For each page which spaces' `unmap` gives a frame back, where they give the page up in the order that is said."""
        groups, pages = [], sorted(orders)
        for page in pages:
            groups.append(["stats"] + [text for k in orders[page] for text in (f"unmap {self.spaces[k].asked_as} {page * PAGE:#x} 1", "stats")])
        found = {}
        for page, answers in zip(pages, self.ask_groups(self.as_processes, groups)):
            given, units = set(), counts(answers[0][0])[0]
            for k, done, stats in zip(orders[page], answers[1::2], answers[2::2]):
                space, now = self.spaces[k], counts(stats[0])[0]
                own = 0 if space.speculating else len(space.pages[page].own)
                fall = units - now - overlay_units(own)
                if done != ["ok"] or fall not in (0, FRAME_UNITS):
                    raise Failed(f"page {page * PAGE:#x} of {space.name} gives back {units - now} units with {own} own lines")
                if fall:
                    given.add(k)
                units = now
            found[page] = given
        return found

    def check_units(self):
        frames = {there.frame for space in self.spaces for there in space.pages.values()} - {0}
        found = FRAME_UNITS * (1 + len(frames)) + sum(overlay_units(len(page.own)) for space in self.spaces for page in space.pages.values())
        if found != self.units:
            raise Failed(f"the frames and overlays that were found take {found} units, and `stats` has {self.units}")

    def number_frames(self):
        """Numbers the frames from 1 by the addresses of their pages."""
        numbers = {0: 0}
        for page in sorted({page for space in self.spaces for page in space.pages}):
            for space in self.spaces:
                if page in space.pages:
                    numbers.setdefault(space.pages[page].frame, len(numbers))
        for space in self.spaces:
            for there in space.pages.values():
                there.frame = numbers[there.frame]


def frames_of(spaces):
    """Of each frame but the zero frame its page and the spaces that name it, by number."""
    found = {}
    for space in spaces:
        for number, page in space.pages.items():
            if page.frame:
                found.setdefault(page.frame, (number, []))[1].append(space)
    return dict(sorted(found.items()))
