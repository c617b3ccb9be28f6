"""Which lines of which pages are overlaid behind a command of a script. tools/overlays --help says how."""
import csv
import sys

import overlaid
import scripts
import studies
from studies import Failed, printable

ABOUT = """Which lines of which pages are overlaid behind a command of a script: for each process and each checkpoint its pages with own lines,
as rows of 64 cells (`#` is a line in the overlay, `.` one that is read in the frame), how many overlays have how many lines, and
which frames are named by more than one page."""
MORE = """It finds them by asking the program: the commands up to there are run again, over frames that suffice, with further ones behind
them.
`promote` takes a page's own lines away, and a `poke` of the byte that is there adds a line exactly where it wasn't overlaid, if the
frame is shared, as it is behind a `checkpoint`. `unmap` gives a frame back where no other page names it. The sum of the lines is that
of `stats`, and so are the units of the frames and overlays that were found; else it ends with status 1. A frame is held to be shared by
pages of one address alone, as forks and checkpoints share it.

Status: 0 where all was found, 1 where something couldn't be, 2 where the words of the call aren't these."""
CELL, ROW = 8, 11


def words():
    words = studies.parser("overlays", ABOUT, MORE)
    words.add_argument("--at", metavar="LINE", type=studies.number_of(0, scripts.MOST_SCRIPT_LINES),
                       help="behind this line of the script, in place of its last")
    words.add_argument("--process", metavar="P", type=studies.number_of(1, 32767), help="of this process alone")
    words.add_argument("--all", action="store_true", help="the pages without own lines too")
    words.add_argument("--csv", metavar="FILE", help="a row for each page, in FILE, or on standard output where it is `-`, in place of the text")
    words.add_argument("--svg", metavar="FILE", help="the rows of cells as a picture, an SVG file, in place of the text")
    studies.add_program_words(words)
    words.add_argument("script", metavar="SCRIPT", help="a file, or `-` for standard input")
    return words


def found_state(call):
    """The study's state behind the line that is asked for, with lines and frames."""
    study = studies.Study.of_call(call, call.at)
    if study.cut_short():
        raise Failed(study.cut_short())
    state = overlaid.State(study, len(study.commands))
    state.find_lines()
    state.find_frames()
    state.number_frames()
    return study, state


def chosen(call, state):
    if call.process is None:
        return state.spaces
    spaces = [space for space in state.spaces if space.process == str(call.process)]
    if not spaces:
        raise Failed(f"there is no process {call.process} there")
    return spaces


def cells(page):
    return "".join("#" if line in page.own else "." for line in range(overlaid.LINES))


def shown_pages(space, everything):
    return [(number, page) for number, page in space.pages.items() if everything or page.own]


def title(call, study, state):
    line = study.commands[-1].number if study.commands else 0
    return f"{printable(call.script)}, behind line {line}: {len(state.spaces)} {'space' if len(state.spaces) == 1 else 'spaces'}, units {state.units}, lines {state.lines}"


def headline(space):
    """A space in words: how many pages and own lines it has."""
    overlays = sum(1 for page in space.pages.values() if page.own)
    return (f"{space.name}{', speculating' if space.speculating else ''}: {len(space.pages)} pages, "
            f"{overlays} with an overlay, own lines {space.lines}")


def names(spaces):
    """Spaces in words, with runs of processes taken together."""
    numbers, found = [int(space.process) for space in spaces if not space.is_checkpoint], []
    for number in numbers:
        if found and found[-1][1] == number - 1:
            found[-1][1] = number
        else:
            found.append([number, number])
    runs = [str(begin) if begin == end else f"{begin} to {end}" for begin, end in found]
    kept = [space.name.split()[1] for space in spaces if space.is_checkpoint]
    return "; ".join([f"process{'' if len(numbers) == 1 else 'es'} {', '.join(runs)}"] * bool(runs)
                     + [f"checkpoint{'' if len(kept) == 1 else 's'} {', '.join(kept)}"] * bool(kept))


def as_text(call, study, state, spaces):
    print(title(call, study, state))
    frames = overlaid.frames_of(state.spaces)
    for space in spaces:
        print(f"\n{headline(space)}")
        for number, page in shown_pages(space, call.all):
            frame = f"frame {page.frame}" if page.frame else "zeros"
            print(f"  {number * overlaid.PAGE:#12x} {page.perms:3}  {cells(page)}  {len(page.own):2} over {frame}")
    histogram(spaces)
    sharers = {frame: those for frame, those in frames.items() if len(those[1]) > 1 and any(space in spaces for space in those[1])}
    own = sum(1 for frame in frames if len(frames[frame][1]) == 1)
    print(f"\nframes: {len(frames)}, of which {own} are named by one page alone; and the zero frame")
    for frame, (number, those) in sharers.items():
        print(f"  frame {frame}, {number * overlaid.PAGE:#x}: {names(those)}")


def histogram(spaces):
    many = {}
    for space in spaces:
        for page in space.pages.values():
            if page.own:
                many[len(page.own)] = many.get(len(page.own), 0) + 1
    if not many:
        print("\nno page has an overlay")
        return
    most = max(many.values())
    print("\nlines  units  overlays")
    for lines, count in sorted(many.items()):
        print(f"{lines:5}  {overlaid.overlay_units(lines):5}  {count:8}  {'*' * max(1, round(40 * count / most))}")


def as_csv(call, spaces):
    with studies.output(call.csv) as file:
        out = csv.writer(file, lineterminator="\n")
        out.writerow(["space", "speculating", "page", "permissions", "frame", "own_lines", "units", "cells"])
        for space in spaces:
            for number, page in shown_pages(space, call.all):
                out.writerow([space.name, "yes" if space.speculating else "no", f"{number * overlaid.PAGE:#x}", page.perms, page.frame,
                              len(page.own), overlaid.overlay_units(len(page.own)), cells(page)])


def as_svg(call, study, state, spaces):
    """A block for each space, with a row of cells for each page: full ones are overlaid, and a frame's number stands behind."""
    body, y = [], 40
    for space in spaces:
        y += 12
        body.append(f'<text x="10" y="{y}" class="space">{headline(space)}</text>')
        for number, page in shown_pages(space, call.all):
            y += ROW
            x = 120
            body.append(f'<text x="110" y="{y + 8}" class="address">{number * overlaid.PAGE:#x}</text>')
            body.append(f'<rect x="{x}" y="{y}" width="{CELL * 64}" height="{ROW - 2}" class="page"/>')
            begin = None
            for line in range(65):
                if line in page.own and begin is None:
                    begin = line
                elif line not in page.own and begin is not None:
                    body.append(f'<rect x="{x + CELL * begin}" y="{y}" width="{CELL * (line - begin)}" height="{ROW - 2}" class="own"/>')
                    begin = None
            body.append(f'<text x="{x + CELL * 64 + 8}" y="{y + 8}" class="frame">{len(page.own)} over '
                        f'{"frame " + str(page.frame) if page.frame else "zeros"}</text>')
        y += 14
    marks = "".join(f'<path d="M{120 + CELL * line} 34V{y}" class="mark"/>' for line in range(0, 65, 16))
    style = ("text{font-family:sans-serif;font-size:9px;fill:#222}.title{font-size:13px}.space{font-size:11px;font-weight:bold}"
             ".address{text-anchor:end;font-family:monospace}.page{fill:#fff;stroke:#888;stroke-width:.5}.own{fill:#1b6ca8}.mark{stroke:#bbb;stroke-width:.5}")
    said = title(call, study, state).replace("&", "&amp;").replace("<", "&lt;")
    text = (f'<svg xmlns="http://www.w3.org/2000/svg" viewBox="0 0 740 {y + 10}" width="740" height="{y + 10}"><title>{said}</title>'
            f'<style>{style}</style><rect width="740" height="{y + 10}" fill="#fff"/><text x="10" y="20" class="title">{said}</text>'
            f"{marks}{''.join(body)}</svg>\n")
    with open(call.svg, "w", encoding="utf-8") as file:
        file.write(text)
    print(f"{call.svg}: {sum(len(shown_pages(space, call.all)) for space in spaces)} pages")


def main():
    call = words().parse_args()
    study, state = found_state(call)
    spaces = chosen(call, state)
    if call.csv:
        as_csv(call, spaces)
    if call.svg:
        as_svg(call, study, state, spaces)
    if not call.csv and not call.svg:
        as_text(call, study, state, spaces)
    return 0


if __name__ == "__main__":
    studies.call("overlays", main)
