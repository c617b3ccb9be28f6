"""What the tools share: the forms of a script, read from the program's own sources, and which lines of a report answer which command.

The table of forms and the ranges of numbers are those of crates/script_text: its specs/Forms.antt, its specs/Kinds.antt, and the constants
of its code and of crates/sizes. A form that is added there is known here at once; a new kind of word has to be added to KINDS below.
"""
import os
import re
import string
import subprocess

TOP = os.path.dirname(os.path.dirname(os.path.realpath(__file__)))
PROGRAM = os.path.join(TOP, "bin", "overlay-run")


def source(*path):
    """A source of the program that says what a script may say. An archive without sources has those few in tools/forms."""
    places = [os.path.join(TOP, "crates", *path), os.path.join(TOP, "tools", "forms", *path)]
    with open(next((place for place in places if os.path.exists(place)), places[0]), encoding="utf-8") as file:
        return file.read()


def constants():
    """The constants of the sources that the kinds of words name, by name."""
    found = {}
    for text in (source("sizes", "src", "lib.rt"), source("script_text", "src", "lib.rt")):
        for name, value in re.findall(r"pub const (\w+): \w+ = ([^;]+);", text):
            try:
                found[name] = eval(re.sub(r" as \w+", "", value), {"__builtins__": {}}, found)
            except Exception:
                pass  # an array or the like, which no kind names
    return found


CONSTANTS = constants()
MOST_SCRIPT_BYTES = CONSTANTS["MOST_SCRIPT_BYTES"]
MOST_SCRIPT_LINES = CONSTANTS["MOST_SCRIPT_LINES"]
MOST_FILE_BYTES = CONSTANTS["MOST_FILE_BYTES"]


def printable(text):
    """A text as it may be shown: a blank for each tab, and `?` for what isn't printable ASCII."""
    return "".join(c if " " <= c <= "~" else " " if c == "\t" else "?" for c in text)


def number_in(word):
    """The number that a word spells, or None. One of more than 30 digits, leading zeros aside, is taken as one of 30: both are beyond every range."""
    base, digits, most = (16, word[2:], string.hexdigits) if word[:2] == "0x" else (10, word, string.digits)
    if digits and all(d in most for d in digits):
        return int((digits.lstrip("0") or "0")[:30], base)
    return None


def ranges():
    """The kinds that are numbers in a range: the least and the most of each."""
    found = {}
    for kind, least, most in re.findall(r"^(\w+_word) word = number_between (\S+) (\S+|\(.*\)) word$", source("script_text", "specs", "Kinds.antt"), re.M):
        found[kind] = tuple(eval(n.replace("^", "**"), {"__builtins__": {}}, CONSTANTS) for n in (least, most))
    return found


RANGES = ranges()

# a register's value is a number as an address is
RANGES["value_word"] = RANGES["address_word"]


def is_file_name(word):
    return 1 <= len(word) <= CONSTANTS["MOST_FILE_NAME"] and all("!" <= c <= "~" for c in word)


def is_checkpoint_name(word):
    return 1 <= len(word) <= CONSTANTS["MOST_CHECKPOINT_NAME"] and all(c in string.ascii_letters + string.digits + "_-" for c in word)


def is_register(word):
    return word == "pc" or word in [f"x{number}" for number in range(32)]


def is_hex(word):
    return 2 <= len(word) <= 2 * CONSTANTS["MOST_POKED"] and len(word) % 2 == 0 and all(c in string.hexdigits for c in word)


# What each kind of word is called, and what one of it is. Those that are a number in a range have none of the latter.
KINDS = {
    "file_word": ("FILE", "a file's name: 1 to 255 bytes from 21 to 7E", is_file_name),
    "checkpoint_word": ("NAME", "a checkpoint's name: 1 to 32 letters, digits, `_` and `-`", is_checkpoint_name),
    "register_word": ("REG", "a register: `x0` to `x31`, or `pc`", is_register),
    "hex_word": ("HEX", "bytes: 2 to 8192 hexadecimal digits, an even number of them, without `0x`", is_hex),
    "perms_word": ("PERM", "permissions: `r`, `rw`, `x`, `rx` or `rwx`", lambda word: word in ("r", "rw", "x", "rx", "rwx")),
    "all_word": ("all", "the word `all`", lambda word: word == "all"),
    "turns_word": ("N", "how many turns", None),
    "process_word": ("P", "a process", None),
    "address_word": ("ADDR", "an address", None),
    "value_word": ("VALUE", "a value", None),
    "pages_word": ("K", "how many pages", None),
    "dumped_word": ("LEN", "how many bytes", None),
    "words_word": ("W", "how many words", None),
}


# where a kind has another name in a form
VALUES = {("set", "address_word"): "value_word"}

# where a word has another name than its kind, by its place
NAMES = {("export", 2): "BASE", ("import", 1): "NEW", ("import", 2): "BASE", ("dedup", 3): "Q"}


def fits(kind, word):
    """Whether a word is of a kind."""
    if kind in RANGES:
        number, (least, most) = number_in(word), RANGES[kind]
        return number is not None and least <= number <= most
    return KINDS[kind][2](word)


def described(kind):
    """What a word of a kind is, in words."""
    if kind in RANGES:
        least, most = RANGES[kind]
        end = "below 2^64" if most == 2**64 - 1 else f"from {least} to {most:,}"
        return f"{KINDS[kind][1]}, a number {end}"
    return KINDS[kind][1]


def forms():
    """The table of forms in its order: of each its first word and the kinds of the words behind it."""
    text = source("script_text", "specs", "Forms.antt")
    rows = re.findall(r'form \(codes "([^"]+)"\) \((no_words|one_word|two_words|three_words|four_words)((?: \w+_word)*) (?:[\w.]+|\(λ [^()]*\))\)', text)
    unknown = sorted({kind for _, _, kinds in rows for kind in kinds.split()} - set(KINDS))
    if unknown or not rows:
        raise SystemExit(f"tools/scripts.py doesn't know these kinds of words: {', '.join(unknown)}" if unknown else "no forms were found")
    table = [(first, kinds.split()) for first, _, kinds in rows]
    return [(first, [VALUES.get((first, kind), kind) for kind in kinds]) for first, kinds in table]


FORMS = forms()


def form_text(form):
    first, kinds = form
    return " ".join([first] + [NAMES.get((first, place), KINDS[kind][0]) for place, kind in enumerate(kinds, 1)])


class Line:
    """A line of a script: its number from 1, its text, and its words with the place of each in the text."""

    def __init__(self, number, text):
        self.number, self.text = number, text
        self.places = [match.span() for match in re.finditer(r"[^ \t]+", text)]
        self.words = [text[begin:end] for begin, end in self.places]

    @property
    def has_command(self):
        return bool(self.words) and not self.words[0].startswith("#")

    def form(self):
        """The form that its words fit, or None."""
        for first, kinds in FORMS:
            if self.words[0] == first and len(self.words) == 1 + len(kinds) and all(map(fits, kinds, self.words[1:])):
                return first, kinds
        return None


def lines_of(script):
    """The lines of a script, which is bytes. A byte stands for itself, as a character of its value."""
    text = script.decode("latin-1")
    pieces = text.split("\n")
    if pieces[-1] == "":
        pieces.pop()
    return [Line(k, piece[:-1] if piece.endswith("\r") else piece) for k, piece in enumerate(pieces, 1)]


def run(program, words, script, folder):
    """What the program prints for a script in a folder, as lines, and its status."""
    try:
        done = subprocess.run([program, *words], input=script, stdout=subprocess.PIPE, stderr=subprocess.PIPE, cwd=folder, check=False)
    except OSError as error:
        raise SystemExit(f"the program can't be run: {program}: {error.strerror}")
    return done.stdout.decode("latin-1").splitlines(), done.returncode


def split(commands, report):
    """For each command the lines of the report that answer it: none where the report ends before."""
    answers, at = [], 0

    def take(count):
        nonlocal at
        taken = report[at:at + count]
        at += len(taken)
        return taken

    def turns():
        taken = []
        while at < len(report) and not (taken and taken[-1].startswith("ran ")):
            taken += take(1)
        return taken

    for command in commands:
        first = command.words[0]
        lines = []
        if first not in ("run", "step"):
            lines = take(1)
        elif at < len(report) and report[at].startswith("refused "):
            lines = take(1)
        else:
            lines = turns()
        if lines and not lines[0].startswith(("refused ", "full ")):
            if first == "exec":
                lines += turns()
            elif first == "regs":
                lines += take(32)
            elif first == "export":
                lines += take(-(-int(lines[0].split()[3]) // CONSTANTS["LINE_BYTES"]))
            elif first == "dump":
                lines += take((number_in(command.words[3]) + 15) // 16 - 1)
            elif first == "disasm":
                lines += take(number_in(command.words[3]) - 1)
            elif first == "list":
                lines += take(sum(int(n) for n in lines[0].split()[1:]))
        answers.append(lines)
    return answers
