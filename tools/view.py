"""A script and its run as a page to look at. tools/view --help says how."""
import json
import os

import figures
import overlaid
import scripts
import studies
from studies import LOADS, PRINTS, Failed, counts, is_done, lookups, printable

ABOUT = """A script and its run as one HTML page that needs nothing else: the script with its report beside it, and for each command the units
over time, the pages of each process and each checkpoint as rows of 64 lines, what of them the command changed, and the frames with
lines to the pages that name them. The keys left and right go from command to command."""
MORE = """What is shown was printed by the program: the states behind the commands are found as by tools/overlays, and the units of whole
pages as by tools/figures --copies. Where the report is long, a command has its first lines alone.

Status: 0 where the page was written, 1 where it couldn't be, or where the report ends before the script, 2 where the words of the call
aren't these."""
TEMPLATE = os.path.join(os.path.dirname(os.path.realpath(__file__)), "view.html")
# the commands that may change bytes of a process that was there before
STORES = ("run", "step", "poke", "restore", "discard")
# the bytes of more pages aren't compared: then the lines alone are shown that joined an overlay
MOST_COMPARED = 1024
MOST_REPORT_LINES, MOST_REPORT_WIDTH = 40, 200


def words():
    words = studies.parser("view", ABOUT, MORE)
    words.add_argument("-o", "--output", metavar="FILE", required=True, help="the page that is written; `-` is standard output")
    words.add_argument("--until", metavar="LINE", type=studies.number_of(0, scripts.MOST_SCRIPT_LINES), help="as if the script ended behind this line")
    words.add_argument("--title", metavar="TEXT", help="the title of the page, in place of the name of the script")
    studies.add_program_words(words)
    words.add_argument("script", metavar="SCRIPT", help="a file, or `-` for standard input")
    return words


def changes(study, k):
    """Whether a command may have changed memory or who has it."""
    return study.commands[k].words[0] not in PRINTS and is_done(study.answers[k])


def states(study):
    """The state behind each command, with lines and frames. A command that changes nothing has that of the one before."""
    changing = [k for k in range(study.ended) if changes(study, k)]
    made = studies.in_parallel(lambda k: with_lines(study, k), changing)
    by_command, found, last = dict(zip(changing, made)), [], None
    for k in range(study.ended):
        if k in by_command:
            name_frames(by_command[k], last, touched(study, k))
            last = by_command[k]
        found.append(last)
    return found


def with_lines(study, k):
    """The state behind a command, with its own lines and the lines whose bytes the command changed."""
    state = overlaid.State(study, k + 1)
    state.find_lines()
    state.changed = changed_bytes(study, k, state) if study.commands[k].words[0] in STORES else []
    return state


def changed_bytes(study, k, state):
    """The lines whose bytes a command changed: of each page with such lines its process, its number, and a mask of 64 bits."""
    before, names = overlaid.State(study, k), touched(study, k)
    # what is restored may have other bytes in pages that can't be written too
    is_restored = study.commands[k].words[0] == "restore"
    asked = [(space, number) for space in state.spaces if not space.is_checkpoint and (names is None or space.name in names)
             for number, page in space.pages.items() if page.is_writable or is_restored]
    old = {(space.name, number) for space in before.spaces for number in space.pages}
    asked = [(space, number) for space, number in asked if (space.name, number) in old]
    if len(asked) > MOST_COMPARED:
        return []
    dumps = [[f"dump {space.process} {number * overlaid.PAGE:#x} {overlaid.PAGE}"] for space, number in asked]
    found = []
    for (space, number), was, now in zip(asked, before.ask_groups([], dumps), state.ask_groups([], dumps)):
        lines = [line for line in range(overlaid.LINES) if was[0][4 * line:4 * line + 4] != now[0][4 * line:4 * line + 4]]
        if lines:
            found.append([space.name, number, mask(lines)])
    return found


def touched(study, k):
    """The names of the spaces whose frames a command may change, or None where they are those that run."""
    line, answer = study.commands[k], study.answers[k]
    first, rest, said = line.words[0], line.words[1:], answer[0].split()
    if first == "run":
        return None
    if first in LOADS:
        return {f"process {said[1]}"}
    if first == "fork":
        return {f"process {said[2]}"}
    if first == "checkpoint":
        return {f"checkpoint {rest[1]}"}
    if first == "import":
        return {f"checkpoint {rest[0]}"}
    number = scripts.number_in(rest[0]) if rest else None
    return set() if first in ("compact", "forget", "drop") or number is None else {f"process {number}"}


def name_frames(state, before, names):
    """The frames of a state, by the same numbers as in the state before where they are the same."""
    known = {}
    if before:
        # what ran may have got frames of its own only where there are more of them
        steady = names is None and frame_units(state) == frame_units(before)
        moved = {space.name for space in state.spaces} if names is None else names
        for space in before.spaces:
            if steady or space.name not in moved:
                known[space.name] = {number: page.frame for number, page in space.pages.items()}
    present = {space.name for space in state.spaces}
    state.find_frames({name: pages for name, pages in known.items() if name in present})
    keep_numbers(state, before, known)


def frame_units(state):
    return state.units - sum(overlaid.overlay_units(len(page.own)) for space in state.spaces for page in space.pages.values())


def keep_numbers(state, before, known):
    """Gives a frame that a page had alone before, and still has alone, its number; and each new frame one that none had."""
    used = state.numbers_used = getattr(before, "numbers_used", 0)
    old = {space.name: space.pages for space in before.spaces} if before else {}
    sharers = {}
    for space in before.spaces if before else []:
        for page in space.pages.values():
            sharers[page.frame] = sharers.get(page.frame, 0) + 1
    numbers = {frame: frame for pages in known.values() for frame in pages.values()}
    for space in state.spaces:
        for number, page in space.pages.items():
            if page.frame and page.frame not in numbers:
                was = old.get(space.name, {}).get(number)
                if was and was.frame and sharers[was.frame] == 1 and was.frame not in numbers.values():
                    numbers[page.frame] = was.frame
                else:
                    used += 1
                    numbers[page.frame] = used
    for space in state.spaces:
        for page in space.pages.values():
            page.frame = numbers.get(page.frame, 0)
    state.numbers_used = used


class Interned:
    """Values that are written once, and named by their places."""

    def __init__(self):
        self.values, self.places = [], {}

    def place(self, value):
        key = json.dumps(value, separators=(",", ":"))
        if key not in self.places:
            self.places[key] = len(self.values)
            self.values.append(value)
        return self.places[key]


def mask(lines):
    return f"{sum(1 << line for line in lines):x}" if lines else ""


def shortened(text):
    return text if len(text) <= MOST_REPORT_WIDTH else text[:MOST_REPORT_WIDTH] + " ..."


def report_lines(answer):
    lines = [shortened(line) for line in answer[:MOST_REPORT_LINES]]
    return lines + ([f"({len(answer) - MOST_REPORT_LINES} more lines)"] if len(answer) > MOST_REPORT_LINES else [])


def whole_pages(study):
    """The units behind each command where whole pages are copied, or None for each and why."""
    try:
        return figures.copies(study), None
    except Failed as error:
        return [None] * study.ended, str(error)


def data_of(study, title):
    """All that the page shows."""
    spaces, layouts = Interned(), Interned()
    copied, why_not = whole_pages(study)
    answers, at, rows = iter(study.answers), 0, []
    found = states(study)
    for line in study.lines:
        row = {"n": line.number, "t": shortened(printable(line.text))}
        if line.has_command:
            answer = next(answers)
            row["a"] = report_lines(answer)
            if at < study.ended:
                told, state = study.told()[at][0], found[at]
                row["u"], row["l"] = counts(told)
                row["h"], row["m"] = lookups(told)
                row["c"] = copied[at]
                row["s"] = [] if state is None else [spaces.place([
                    space.name, int(space.speculating), layouts.place([[number, page.perms] for number, page in space.pages.items()]),
                    [mask(page.own) for page in space.pages.values()], [page.frame for page in space.pages.values()]]) for space in state.spaces]
                if state is not None and state.changed and changes(study, at):
                    row["b"] = state.changed
                row["x"] = states_of(study.told()[at][1])
            at += 1
        rows.append(row)
    limit = next((int(told[0].split()[3]) for told in study.told()), 0)
    return {"title": title, "limit": limit, "rows": rows, "spaces": spaces.values, "layouts": layouts.values, "whyNot": why_not,
            "cut": study.cut_short()}


def states_of(listed):
    """The state of each process as `list` has it: running, exited and so on."""
    return [line.split(" pages ")[0].split(" ", 2)[2] for line in listed if line.startswith("process ")]


def main():
    call = words().parse_args()
    study = studies.Study.of_call(call, call.until)
    with open(TEMPLATE, encoding="utf-8") as file:
        template = file.read()
    title = call.title or f"overlay-run: {printable(call.script)}"
    data = json.dumps(data_of(study, title), separators=(",", ":"), ensure_ascii=True).replace("<", "\\u003c")
    plain = title.replace("&", "&amp;").replace("<", "&lt;")
    page = template.replace("@TITLE@", plain).replace("@DATA@", data)
    with studies.output(call.output) as file:
        file.write(page)
    if call.output != "-":
        print(f"{call.output}: {study.ended} commands, {len(page.encode()):,} bytes")
    return say_cut(study)


def say_cut(study):
    if study.cut_short():
        raise Failed(study.cut_short())
    return 0


if __name__ == "__main__":
    studies.call("view", main)
