"""What an image of a checkpoint says, and its lines as a file. tools/image --help says how."""
import itertools
import re

import images
import studies
from images import LINE, LINES, PAGE
from studies import Failed, printable

ABOUT = """What an image of a checkpoint says: its state and pc, and its pages with their permissions, as rows of 64 cells where lines are given
(`#` is a line that is given, `.` one that is its base's). FILE is a report, of which each `exported` is shown with its lines, or a
file of such lines `image HEX`."""
MORE = """With -o nothing is shown: the lines of one image are written, as an `import` takes them.

Status: 0 where all was shown or written, 1 where there is no such image, or several are to be written, or lines don't say one, 2 where
the words of the call aren't these."""


def words():
    words = studies.parser("image", ABOUT, MORE)
    words.add_argument("-o", "--output", metavar="FILE", help="write the lines into this file; `-` is standard output")
    words.add_argument("--of", metavar="NAME", help="of a report, the images of this checkpoint")
    words.add_argument("--over", metavar="BASE", help="of a report, the images over this checkpoint")
    words.add_argument("--number", metavar="N", type=studies.number_of(1, 65536), help="of those, the one at this place, from 1")
    words.add_argument("--registers", action="store_true", help="show the registers that aren't 0 too")
    words.add_argument("file", metavar="FILE", help="a file, or `-` for standard input")
    return words


class Found:
    """An image that was found: its bytes; in a report, the checkpoint and its base; and what it is called."""

    def __init__(self, data, name, of=None, over=None):
        self.data, self.name, self.of, self.over = data, name, of, over

    def image(self):
        try:
            return images.decoded(self.data)
        except Failed as error:
            raise Failed(f"{self.name} is no image: {error}") from None


def found_in(text, file):
    """The image of a file of lines, or those of a report."""
    if text.startswith(b"image "):
        try:
            return [Found(images.read(text), file)]
        except Failed as error:
            raise Failed(f"{file}: {error}") from None
    found, lines = [], iter(re.findall(r"[^\n]*\n", text.decode("latin-1")))
    for line in lines:
        match = re.fullmatch(r"exported ([\w-]+) ([\w-]+) ([0-9]{1,8})\n", line)
        if match:
            found.append(exported(*match.groups(), lines))
    return found


def exported(of, over, length, lines):
    """The image of an `export`, whose lines are the next ones."""
    name, count = f"{of} over {over}", -(-int(length) // LINE)
    taken = list(itertools.islice(lines, count))
    if len(taken) < count:
        raise Failed(f"the report ends within the lines of {name}")
    try:
        data = images.read("".join(taken).encode("latin-1"))
    except Failed as error:
        raise Failed(f"{name}: {error}") from None
    if len(data) != int(length):
        raise Failed(f"{name} has {length} bytes, and {len(data)} are there")
    return Found(data, name, of, over)


def chosen(call, found):
    """Those that the call asks for."""
    those = [one for one in found if call.of in (None, one.of) and call.over in (None, one.over)]
    if call.number is not None:
        those = those[call.number - 1:call.number]
    if not those:
        has = f"; it has {names(found)}" if found else ""
        raise Failed(f"{printable(call.file)} has no {'such ' if found else ''}image{has}")
    return those


def names(found):
    return ", ".join(one.name for one in found)


def runs(image):
    """The pages in their order, those without given lines together where one follows the other and has the same permissions."""
    found, last = [], None
    for number, page in image.pages.items():
        if found and not page.lines and not found[-1][1].lines and last == number - 1 and found[-1][1].bits == page.bits:
            found[-1][2] += 1
        else:
            found.append([number, page, 1])
        last = number
    return found


def show(one, with_registers):
    image = one.image()
    given = [len(page.lines) for page in image.pages.values() if page.lines]
    print(f"{one.name}: {image.state}, pc {image.registers[0]:#x}; {len(image.pages)} pages, {len(given)} with given lines, "
          f"{sum(given)} in all; {len(one.data)} bytes")
    if with_registers:
        for number, value in enumerate(image.registers[1:], 1):
            if value:
                print(f"  x{number} {value:#x}")
    for number, page, count in runs(image):
        cells = "".join("#" if line in page.lines else "." for line in range(LINES))
        what = f"{cells}  {len(page.lines):2}" if page.lines else "no line" if count == 1 else f"no line, {count} pages"
        print(f"  {number * PAGE:#12x} {page.perms:3}  {what}")


def main():
    call = words().parse_args()
    those = chosen(call, found_in(studies.read(call.file), printable(call.file)))
    if call.output is None:
        for number, one in enumerate(those):
            if number:
                print()
            show(one, call.registers)
        return 0
    if len(those) > 1:
        raise Failed(f"these are {len(those)} images: {names(those)}; --of, --over and --number choose one")
    one = those[0]
    one.image()
    lines = images.written(one.data)
    with studies.output(call.output) as file:
        file.write("".join(line + "\n" for line in lines))
    if call.output != "-":
        print(f"{call.output}: {one.name}, {len(lines)} lines")
    return 0


if __name__ == "__main__":
    studies.call("image", main)
