"""Names for addresses, and addresses for names: what the files that a script loads call their functions and objects, and from which line of
which source an instruction comes.
"""
import bisect
import difflib
import os
import re

import elf
import images
import scripts
from studies import Failed, command, is_done

ABI = (["zero", "ra", "sp", "gp", "tp", "t0", "t1", "t2", "s0", "s1"] + [f"a{k}" for k in range(8)] + [f"s{k}" for k in range(2, 12)]
       + [f"t{k}" for k in range(3, 7)])
REGISTERS = {**{name: f"x{k}" for k, name in enumerate(ABI)}, "fp": "x8"}
ADDRESSES = ("address_word", "value_word")
NAME = re.compile(r"([A-Za-z_.$@][\w.$@]*)(?:([+-])(0x[0-9A-Fa-f]+|[0-9]+))?$")


class File:
    """The names of one file: its symbols by address, and the lines of its sources where it was built with -g."""

    def __init__(self, path, loaded_path):
        self.path = path
        try:
            with open(path, "rb") as file:
                data = file.read()
            self.symbols = elf.symbols(data)
            self.segments = elf.segments(data)
            self.lines = elf.source_lines(data)
        except elf.NotElf as error:
            raise Failed(f"{path}: {error}") from None
        except (IndexError, ValueError, OverflowError):
            raise Failed(f"{path}: its symbols or its lines can't be read") from None
        if path != loaded_path:
            self.compare(loaded_path)
        self.starts = [symbol.address for symbol in self.symbols]
        self.line_starts = [row[0] for row in self.lines]

    def compare(self, loaded_path):
        """The file that is loaded has to stand at the same addresses: else the names aren't its own."""
        with open(loaded_path, "rb") as file:
            loaded = elf.segments(file.read())
        if [(s.address, s.size) for s in loaded] != [(s.address, s.size) for s in self.segments]:
            raise Failed(f"{self.path} has other segments than {loaded_path}, so its names aren't those of it")

    def has(self, address):
        return any(segment.address <= address < segment.address + segment.size for segment in self.segments)

    def addresses(self, name):
        return sorted({symbol.address for symbol in self.symbols if symbol.name == name})

    def name_of(self, address):
        """The symbol in which an address lies, as `name+0x18`, or None."""
        at = bisect.bisect_right(self.starts, address) - 1
        while at >= 0 and self.has(address):
            symbol = self.symbols[at]
            # the first of those at one address is the largest; one without a size goes on to the next
            first = bisect.bisect_left(self.starts, symbol.address)
            symbol = self.symbols[first]
            if symbol.size == 0 or address < symbol.address + symbol.size:
                offset = address - symbol.address
                return symbol.name + (f"+{offset:#x}" if offset else "")
            at = first - 1
        return None

    def line_of(self, address):
        """The line of the source that an instruction comes from, as `queens.c:31`, or None."""
        at = bisect.bisect_right(self.line_starts, address) - 1
        if at >= 0 and self.lines[at][0] <= address < self.lines[at][1]:
            return f"{os.path.basename(self.lines[at][2])}:{self.lines[at][3]}"
        return None


class Names:
    """The names of all files that a script loads. Those of a file may be read from one of the same name in another folder, which wasn't stripped."""

    def __init__(self, folder, other=None):
        self.folder, self.other, self.files = folder, other, {}

    def of(self, name):
        if name not in self.files:
            loaded = os.path.join(self.folder, name)
            path = loaded
            if self.other is not None and os.path.exists(os.path.join(self.other, os.path.basename(name))):
                path = os.path.join(self.other, os.path.basename(name))
            self.files[name] = File(path, loaded)
        return self.files[name]

    def address(self, word, files):
        """The address for a name in the first of some files that have it, with `+N` or `-N` behind it; None where the word isn't of that form."""
        match = NAME.match(word)
        if not match:
            return None
        name, sign, offset = match.groups()
        found = {address: file for file in dict.fromkeys(files) for address in self.of(file).addresses(name)}
        if not found:
            raise Failed(self.unknown(name, files))
        if len(found) > 1:
            places = ", ".join(f"{address:#x} in {file}" for address, file in sorted(found.items()))
            raise Ambiguous(f"`{name}` is at {places}: write the address")
        address = next(iter(found)) + (int(offset, 0 if offset.startswith("0x") else 10) * (-1 if sign == "-" else 1) if offset else 0)
        if not 0 <= address < 2**64:
            raise Failed(f"`{word}` is no address")
        return address

    def all_names(self, files):
        return sorted({symbol.name for file in dict.fromkeys(files) for symbol in self.of(file).symbols})

    def unknown(self, name, files):
        known = self.all_names(files)
        if not files:
            return f"`{name}` isn't known: no file is loaded before"
        if not known:
            return f"`{name}` isn't known: {', '.join(dict.fromkeys(files))} has no symbols; build it without -s"
        near = difflib.get_close_matches(name, known, 1)
        return f"`{name}` isn't a name of {', '.join(dict.fromkeys(files))}" + (f"; is it `{near[0]}`?" if near else "")


class Ambiguous(Failed):
    """A name that stands for several addresses."""


class Owners:
    """Which file each process and each checkpoint was made from, followed along a script, in a folder, by what it was answered."""

    def __init__(self, folder):
        self.folder, self.processes, self.kept = folder, {}, {}

    def follow(self, line, answer):
        if not is_done(answer):
            return
        first, rest, said = line.words[0], line.words[1:], answer[0].split()
        process = str(scripts.number_in(rest[0])) if rest and scripts.number_in(rest[0]) is not None else None
        if first in ("load", "exec"):
            self.processes[said[1]] = rest[0]
        elif first == "asm":
            # a text's file has no symbols
            self.processes.pop(said[1], None)
        elif first == "fork":
            self.processes[said[2]] = self.processes.get(said[1])
        elif first == "checkpoint":
            self.kept[rest[1]] = self.processes.get(process)
        elif first == "import":
            # instructions that the image gives may be those of another file
            image = images.image_in(os.path.join(self.folder, rest[2]))
            self.kept[rest[0]] = None if image.gives_code else self.kept.get(rest[1])
        elif first == "restore":
            self.processes[process] = self.kept.get(rest[1])

    def file_of(self, process):
        return self.processes.get(str(process))


def named_words(line):
    """The places of a line's words at which an address, a value or a register may stand, and is a name: (place, whether it is a register)."""
    found = []
    for first, kinds in scripts.FORMS:
        if line.words[0] != first or len(line.words) != 1 + len(kinds):
            continue
        for place, kind in enumerate(kinds, 1):
            word = line.words[place]
            if kind == "register_word" and word in REGISTERS:
                found.append((place, True))
            elif kind in ADDRESSES and not scripts.fits(kind, word) and NAME.match(word) and word != "all":
                found.append((place, False))
    return sorted(set(found))


def with_addresses(line, names, files):
    """The line with addresses in the place of names, which are looked for in some files."""
    words = list(line.words)
    for place, is_register in named_words(line):
        words[place] = REGISTERS[words[place]] if is_register else f"{names.address(words[place], files):#x}"
    return command(" ".join(words), line.number) if words != line.words else line


def branch_target(address, text):
    """The address that a branch or a jump at an address leads to, or None."""
    match = re.match(r"(?:jal x\d+|b\w+ x\d+, x\d+), (-?\d+)$", text)
    return address + int(match.group(1)) if match else None


class Reader:
    """Reads lines of the report back with names."""

    def __init__(self, names):
        self.names = names

    def place(self, address, file):
        """An address in words: the symbol and the line of the source, or nothing."""
        if file is None:
            return ""
        known = self.names.of(file)
        symbol, line = known.name_of(address), known.line_of(address)
        return " ".join(([symbol] if symbol else []) + ([f"({line})"] if line else []))

    def with_place(self, text, address, file):
        place = self.place(address, file)
        return f"{text}  {place}" if place else text

    def line(self, text, asked, owners):
        """A line of the report, which answers a command."""
        words = text.split()
        first = asked.words[0]
        if words[0] == "loaded":
            return self.with_place(text, int(words[5], 16), owners.file_of(words[1]))
        if words[0] == "break" or words[0] == "faulted" and len(words) == 4:
            return self.with_place(text, int(words[-1], 16), owners.file_of(words[1]))
        if words[0] in ("refused", "full", "out", "err", "ran", "exited"):
            return text
        file = owners.file_of(scripts.number_in(asked.words[1])) if len(asked.words) > 1 and scripts.number_in(asked.words[1]) is not None else None
        if first == "regs" and words[0] != "regs":
            name = words[0] if words[0] == "pc" else ABI[int(words[0][1:])]
            return self.with_place(f"{name:4} {words[1]}", int(words[1], 16), file)
        if first == "dump":
            return self.with_place(text, int(words[0], 16), file)
        if first == "disasm":
            return self.instruction(text, file)
        if words[0] == "process" and "faulted" in words:
            at = words.index("faulted") + 2
            return self.with_place(text, int(words[at], 16), owners.file_of(words[1]))
        return text

    def instruction(self, text, file):
        address, word, shown = text.split(" ", 2)
        target = branch_target(int(address, 16), shown)
        named = re.sub(r"\bx(\d+)\b", lambda match: ABI[int(match.group(1))], shown)
        if target is not None and file is not None and self.names.of(file).name_of(target):
            named += f" -> {self.names.of(file).name_of(target)}"
        return self.with_place(f"{address} {word} {named:32}".rstrip(), int(address, 16), file)
