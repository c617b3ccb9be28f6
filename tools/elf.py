"""What the tools read of an ELF-64 file: the pages of its segments, its symbols, and which line of which source an address comes from."""
import struct

MAGIC = b"\x7fELF\x02\x01"
PT_LOAD, SHT_SYMTAB, SHT_DYNSYM = 1, 2, 11
FUNCTION, OBJECT, NO_TYPE = 2, 1, 0
PAGE = 4096


class NotElf(Exception):
    """Why a file can't be read as an ELF-64 file of low-endian words."""


class Segment:
    """A loadable segment: where it stands, how many bytes it has, and its permissions as `rwx` has them."""

    def __init__(self, address, size, flags):
        self.address, self.size = address, size
        self.perms = {bit for bit, name in ((4, "r"), (2, "w"), (1, "x")) if flags & bit}


class Symbol:
    """A name with its address, its size and whether it is code."""

    def __init__(self, name, address, size, is_code):
        self.name, self.address, self.size, self.is_code = name, address, size, is_code


class Section:
    def __init__(self, name, kind, address, offset, size, link, entry, flags):
        self.name, self.kind, self.address, self.offset, self.size = name, kind, address, offset, size
        self.link, self.entry, self.flags = link, entry, flags


def text_at(data, at):
    end = data.find(b"\0", at)
    return data[at:end if end >= 0 else len(data)].decode("utf-8", "replace")


def header(data):
    if data[:6] != MAGIC or len(data) < 64:
        raise NotElf("it isn't an ELF-64 file")
    return struct.unpack_from("<HHIQQQIHHHHHH", data, 16)


def segments(data):
    """The loadable segments of a file that have a byte in memory."""
    *_, table, _, _, _, entry_size, count, _, _, _ = header(data)
    found = []
    for k in range(count):
        try:
            kind, flags, _, address, _, _, size, _ = struct.unpack_from("<IIQQQQQQ", data, table + k * entry_size)
        except struct.error:
            raise NotElf("its table of program headers lies outside") from None
        if kind == PT_LOAD and size:
            found.append(Segment(address, size, flags))
    return found


def sections(data):
    """The sections of a file: none where it has none, or where their table lies outside."""
    fields = header(data)
    table, entry_size, count, names_at = fields[5], fields[10], fields[11], fields[12]
    rows = []
    for k in range(count):
        try:
            rows.append(struct.unpack_from("<IIQQQQIIQQ", data, table + k * entry_size))
        except struct.error:
            return []
    if not names_at < len(rows):
        return []
    names = rows[names_at][4]
    return [Section(text_at(data, names + name), kind, address, offset, size, link, entry, flags)
            for name, kind, flags, address, offset, size, link, _, _, entry in rows]


def symbols(data):
    """The functions, objects and labels of a file's table of symbols, by address: none where it was stripped."""
    rows, found = sections(data), []
    for section in rows:
        if section.kind != SHT_SYMTAB or section.link >= len(rows):
            continue
        names = rows[section.link].offset
        for at in range(section.offset, section.offset + section.size - 23, 24):
            name, info, _, home, address, size = struct.unpack_from("<IBBHQQ", data, at)
            text = text_at(data, names + name)
            # a name of no section or of no place in one, a mapping symbol (`$x`) and a compiler's label (`.L1`) are nobody's names
            if not 0 < home < 0xff00 or not text or text[0] in "$." or (info & 15) not in (NO_TYPE, OBJECT, FUNCTION):
                continue
            executable = home < len(rows) and bool(rows[home].flags & 4)
            found.append(Symbol(text, address, size, executable))
    return sorted(found, key=lambda symbol: (symbol.address, -symbol.size, symbol.name))


class Reader:
    """Reads the numbers of DWARF one after the other."""

    def __init__(self, data, at, end):
        self.data, self.at, self.end = data, at, min(end, len(data))

    def number(self, size):
        found = int.from_bytes(self.data[self.at:self.at + size], "little")
        self.at += size
        return found

    def uleb(self):
        found = shift = 0
        while True:
            byte = self.number(1)
            found |= (byte & 127) << shift
            shift += 7
            if byte < 128 or self.at >= self.end:
                return found

    def sleb(self):
        begin = self.at
        found = self.uleb()
        bits = 7 * (self.at - begin)
        return found - (1 << bits) if found >> (bits - 1) & 1 else found

    def text(self):
        found = text_at(self.data, self.at)
        self.at = self.data.find(b"\0", self.at) + 1
        return found


def form_value(reader, form, wide, strings):
    """The value of a form that a table of files in DWARF 5 may have."""
    size = 8 if wide else 4
    if form == 0x08:                                    # string
        return reader.text()
    if form in (0x0e, 0x1f):                            # strp, line_strp
        data, base = strings[".debug_str" if form == 0x0e else ".debug_line_str"]
        at = reader.number(size)
        return text_at(data, base + at)
    sizes = {0x0b: 1, 0x05: 2, 0x06: 4, 0x07: 8, 0x1e: 16}
    if form in sizes:
        return reader.number(sizes[form])
    if form == 0x0f:                                    # udata
        return reader.uleb()
    if form == 0x09:                                    # block
        reader.at += reader.uleb()
        return None
    raise NotElf(f"its lines have a form {form:#x} that isn't known")


def entries(reader, wide, strings):
    """A table of folders or of files in DWARF 5: of each the path and the number of its folder."""
    formats = [(reader.uleb(), reader.uleb()) for _ in range(reader.number(1))]
    found = []
    for _ in range(reader.uleb()):
        values = {content: form_value(reader, form, wide, strings) for content, form in formats}
        found.append((values.get(1, ""), values.get(2, 0)))
    return found


def old_entries(reader):
    """The tables of folders and of files before DWARF 5, numbered from 1."""
    folders = [("", 0)]
    while reader.data[reader.at]:
        folders.append((reader.text(), 0))
    reader.at += 1
    files = [("", 0)]
    while reader.data[reader.at]:
        name = reader.text()
        files.append((name, reader.uleb()))
        reader.uleb(), reader.uleb()
    reader.at += 1
    return folders, files


class Program:
    """The header of a line program, and its rows: (address, file, line, whether a sequence ends)."""

    def __init__(self, reader, end, wide, strings):
        version = reader.number(2)
        if not 2 <= version <= 5:
            raise NotElf(f"its lines are of DWARF {version}")
        if version == 5:
            reader.number(2)
        length = reader.number(8 if wide else 4)
        code = reader.at + length
        self.least = reader.number(1)
        if version >= 4:
            reader.number(1)
        reader.number(1)
        self.base = reader.number(1)
        self.base -= 256 if self.base > 127 else 0
        self.range, self.opcodes = reader.number(1), reader.number(1)
        self.lengths = [reader.number(1) for _ in range(self.opcodes - 1)]
        if version == 5:
            self.folders = entries(reader, wide, strings)
            self.files = entries(reader, wide, strings)
        else:
            self.folders, self.files = old_entries(reader)
        reader.at = code
        self.rows = list(self.run(reader, end))

    def name(self, file):
        return self.files[file][0] if file < len(self.files) else "?"

    def run(self, reader, end):
        address, file, line = 0, 1, 1
        while reader.at < end:
            opcode = reader.number(1)
            if opcode >= self.opcodes:
                opcode -= self.opcodes
                address += self.least * (opcode // self.range)
                line += self.base + opcode % self.range
                yield address, self.name(file), line, False
            elif opcode == 0:
                size = reader.uleb()
                then = reader.at + size
                extended = reader.number(1)
                if extended == 1:
                    yield address, self.name(file), line, True
                    address, file, line = 0, 1, 1
                elif extended == 2:
                    address = reader.number(size - 1)
                reader.at = then
            elif opcode == 1:
                yield address, self.name(file), line, False
            elif opcode == 2:
                address += self.least * reader.uleb()
            elif opcode == 3:
                line += reader.sleb()
            elif opcode == 4:
                file = reader.uleb()
            elif opcode == 8:
                address += self.least * ((255 - self.opcodes) // self.range)
            elif opcode == 9:
                address += reader.number(2)
            else:
                for _ in range(self.lengths[opcode - 1]):
                    reader.uleb()


def source_lines(data):
    """The stretches of code that come from one line of a source, by address: (from, to, file, line). None without `-g`."""
    rows = {section.name: section for section in sections(data)}
    if ".debug_line" not in rows:
        return []
    if any(rows[name].flags & 0x800 for name in (".debug_line", ".debug_line_str", ".debug_str") if name in rows):
        raise NotElf("its lines are compressed; build without -gz")
    strings = {name: (data, rows[name].offset if name in rows else len(data)) for name in (".debug_str", ".debug_line_str")}
    section, found = rows[".debug_line"], []
    at, end = section.offset, section.offset + section.size
    while at < end:
        reader = Reader(data, at, end)
        length, wide = reader.number(4), False
        if length == 0xffffffff:
            length, wide = reader.number(8), True
        at = reader.at + length
        previous = None
        for row in Program(reader, at, wide, strings).rows:
            if previous and row[0] > previous[0]:
                found.append((previous[0], row[0], previous[1], previous[2]))
            previous = None if row[3] else row
    return sorted(found)
