"""Images of checkpoints: the lines of the report, or of a file, that say one, and what it says. The format stands in crates/delta_image."""
import re

import scripts
from studies import Failed

PAGE, LINE, LINES = (scripts.CONSTANTS[name] for name in ("PAGE_BYTES", "LINE_BYTES", "PAGE_LINES"))
MOST_PAGES, PAGE_END = scripts.CONSTANTS["MOST_SPACE_PAGES"], scripts.CONSTANTS["ADDRESS_END"] // PAGE
MAGIC = b"OVL1"
RUNNING, EXITED, FAULTED = range(3)
FAULTS = ("align", "fetch", "illegal", "load", "store", "break")
PERMISSIONS = (0, 1, 4, 5, 6, 7)


def permissions(bits):
    """Permissions as they are written in a script; nothing where there are none."""
    return "".join(name for bit, name in ((4, "r"), (2, "w"), (1, "x")) if bits & bit)


class Page:
    """A page of an image: its permissions as a number, and the lines that are given, by number."""

    def __init__(self, bits, lines):
        self.bits, self.lines = bits, lines

    @property
    def perms(self):
        return permissions(self.bits)


class Image:
    """What an image says: its state as `list` has it, the pc and then x1 to x31, and its pages by number."""

    def __init__(self, state, registers, pages):
        self.state, self.registers, self.pages = state, registers, pages

    @property
    def gives_code(self):
        """Whether it gives lines of pages that are executed."""
        return any(page.lines and page.bits & 1 for page in self.pages.values())


class Bytes:
    """The bytes of an image, taken from the front."""

    def __init__(self, data):
        self.data, self.at = data, 0

    def take(self, count, what):
        if len(self.data) < self.at + count:
            raise Failed(f"its {len(self.data)} bytes end within {what}")
        self.at += count
        return self.data[self.at - count:self.at]

    def number(self, count, what):
        return int.from_bytes(self.take(count, what), "little")


def decoded(data):
    """The image that bytes are, or why they are none."""
    rest = Bytes(data)
    if rest.take(len(MAGIC), "its first four bytes") != MAGIC:
        raise Failed("it doesn't begin with `OVL1`")
    state = state_of(rest)
    registers = [rest.number(8, "the registers") for _ in range(32)]
    count = rest.number(4, "the number of pages")
    if count > MOST_PAGES:
        raise Failed(f"it has {count:,} pages, and {MOST_PAGES:,} are the most")
    pages, least = {}, 0
    for k in range(1, count + 1):
        number, page = page_of(rest, f"page {k} of {count}", least)
        pages[number], least = page, number + 1
    if rest.at < len(data):
        raise Failed(f"something stands behind its last page, from byte {rest.at} on")
    return Image(state, registers, pages)


def state_of(rest):
    kind = rest.number(1, "the state")
    if kind == RUNNING:
        return "running"
    if kind == EXITED:
        return f"exited {rest.number(1, 'the state')}"
    if kind != FAULTED:
        raise Failed(f"its state is of kind {kind}, and kinds are 0 to 2")
    fault, address = rest.number(1, "the state"), rest.number(8, "the state")
    if fault >= len(FAULTS):
        raise Failed(f"its fault is of kind {fault}, and kinds are 0 to {len(FAULTS) - 1}")
    return f"faulted {FAULTS[fault]} {address:#x}"


def page_of(rest, name, least):
    """The number of the next page, which is so much at the least, and the page."""
    number, bits, vector = rest.number(4, name), rest.number(1, name), rest.number(8, name)
    if number < least:
        raise Failed(f"{name}, {number * PAGE:#x}, doesn't stand above the one before it")
    if number >= PAGE_END:
        raise Failed(f"{name}, {number * PAGE:#x}, isn't below {PAGE_END * PAGE:#x}")
    if bits not in PERMISSIONS:
        raise Failed(f"{name}, {number * PAGE:#x}, has the permissions {bits}, which no page has")
    return number, Page(bits, {line: rest.take(LINE, name) for line in range(LINES) if vector >> line & 1})


def without_lines(numbers):
    """The bytes of an image whose pages are these, to be read and written, and give no line: what their base has there stays."""
    pages = [number.to_bytes(4, "little") + bytes([6]) + bytes(LINES // 8) for number in sorted(numbers)]
    return MAGIC + bytes([RUNNING]) + bytes(32 * 8) + len(pages).to_bytes(4, "little") + b"".join(pages)


def written(data):
    """The lines that say bytes."""
    return [f"image {data[at:at + LINE].hex()}" for at in range(0, len(data), LINE)]


def read(text):
    """The bytes that a file of lines says, or which of its lines is the first that isn't well formed."""
    *ended, rest = text.split(b"\n")
    count, data = len(ended) + bool(rest), []
    for k, line in enumerate(ended, 1):
        match = re.fullmatch(rb"image ((?:[0-9a-f]{2})+)", line)
        size = len(match[1]) // 2 if match else 0
        if not match or size > LINE or size < LINE and k < count:
            raise Failed(f"line {k} isn't well formed")
        data.append(bytes.fromhex(match[1].decode()))
    if rest or not ended:
        raise Failed(f"line {len(ended) + 1} isn't well formed")
    return b"".join(data)


def said(text):
    """The image that a file of lines says."""
    return decoded(read(text))


def image_in(path):
    """The image of a file."""
    with open(path, "rb") as file:
        text = file.read()
    try:
        return said(text)
    except Failed as error:
        raise Failed(f"{path}: {error}") from None
