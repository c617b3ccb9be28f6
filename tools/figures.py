"""Figures of a script: what a run of it says and what its memory takes, command by command. tools/figures --help says how."""
import csv
import re
import shutil
import subprocess
import sys

import scripts
import studies
from studies import LOADS, PRINTS, TURNS, Failed, checkpoints, command, counts, is_done, lookups, printable, processes, without_counts

ABOUT = """Figures of a script: what a run of it says and what its memory takes, command by command. Without a word that says what to
make, --answers, --table and --held are made."""
MORE = """With --copies there stand beside the units of the run those of a machine that copies a whole page at the first store to it: the
same script over 65,536 frames, with `promote P all` behind each command that may store, and with `checkpoint` and
`restore` in the place of speculations. An imported checkpoint is restored and promoted as a process, which is kept meanwhile. Nothing is shown where a line of the report is `full`, where a process is made after a
speculation, or where with --calls a command finds or makes a process speculating.

The program is run on copies of the script with `stats`, `list` and such commands added behind its own, so each number is one
that the program printed, or a difference of two. The lines that the script's own commands have are compared between the runs.
With --samples the report of the run in pieces is compared with that of the whole: where a `run` of several processes goes on
elsewhere, since each `run` begins with the lowest process and a fresh quantum, it stays whole, and that is said.

Status: 0 where all was made, 1 where something couldn't be, or where the report ends before the script, 2 where the words of
the call aren't these."""
MAKES = LOADS + ("fork",)
# beyond so many commands a chart has numbers below, and the commands beside
MOST_NAMED = 20


def words():
    words = studies.parser("figures", ABOUT, MORE)
    what = words.add_argument_group("what is made")
    what.add_argument("--answers", action="store_true", help="the script and its report interleaved: each line, and behind it its lines of the report")
    what.add_argument("--table", action="store_true", help="units and lines after each command, with what was refused or `full`; "
                      "commands that print and change nothing have no row")
    what.add_argument("--held", action="store_true", help="how many units and lines each process and each checkpoint holds alone when the "
                      "script has ended: those before its `drop` or `forget` without those after it, each in a run of its own")
    what.add_argument("--chart", metavar="FILE", help="the table as a chart, an SVG file. It needs gnuplot")
    what.add_argument("--csv", metavar="FILE", help="every command uncut, a row each, with units, lines, hits, misses, units of whole pages "
                      "(with --copies) and its last line of the report; `-` is standard output")
    how = words.add_argument_group("how")
    how.add_argument("--copies", action="store_true", help="beside the units those where whole pages are copied")
    how.add_argument("--samples", metavar="N", type=studies.number_of(1, 10**7), help="`run`, `step` and `exec` in pieces of N turns, with a row each")
    how.add_argument("--only", metavar="WORDS", help="the rows and points of commands that begin with these words alone, numbered from 1, or "
                     "from 0 where the first of them is that of --since")
    how.add_argument("--since", metavar="LINE", type=studies.number_of(1, 65536), help="units and lines without those after the command in this line")
    how.add_argument("--until", metavar="LINE", type=studies.number_of(0, 65536), help="as if the script ended behind this line")
    how.add_argument("--title", metavar="TEXT", help="the title of the chart, in place of the name of the script")
    how.add_argument("--axis", metavar="TEXT", help="what the chart says below, in place of `command`")
    studies.add_program_words(how)
    words.add_argument("script", metavar="SCRIPT", help="a file, or `-` for standard input")
    return words


def without_saved(lines):
    """Lines of the report without the number of a checkpoint, which no command and no process asks for."""
    return [re.sub(r"^(saved \d+ \S+|imported \S+) \d+\b", r"\1", line) for line in lines]


def pieces(line, answer, turns):
    """A command of turns as commands of fewer: of as many turns as were taken, and where an instruction was `full` one more."""
    first, rest = line.words[0], line.words[1:]
    if first not in TURNS or not is_done(answer) or not answer[-1].startswith("ran "):
        return [line]
    taken, full = int(answer[-1].split()[1]), answer[-1].endswith(" full")
    if taken <= turns:
        return [line]
    counts_of = [turns] * (taken // turns) + ([taken % turns] if taken % turns else [])
    if full:
        counts_of = counts_of[:-1] + [counts_of[-1] + 1] if taken % turns else counts_of + [1]
    if first == "exec":
        return None
    words = [first] + rest[:-1]
    return [command(" ".join(words + [str(n)]), line.number) for n in counts_of]


def split_exec(line, answer, turns, process):
    """An `exec` in pieces: the load, and then steps of its process."""
    load = command(f"load {line.words[1]}", line.number)
    steps = command(f"step {process} {line.words[2]}", line.number)
    return [load] + pieces(steps, answer[1:], turns)


def joined(answers):
    """The lines of the pieces of one command as those of the whole."""
    lines, taken = [], 0
    for answer in answers[:-1]:
        if answer[-1].startswith("ran "):
            taken += int(answer[-1].split()[1])
            lines += answer[:-1]
        else:
            lines += answer
    last = answers[-1]
    if last and last[-1].startswith("ran "):
        _, turns, why = last[-1].split()
        return lines + last[:-1] + [f"ran {taken + int(turns)} {why}"]
    return lines + last


def sampled(study, turns):
    """The study with its turns in pieces, and why some of its commands stay whole."""
    parts, kept_whole = [], []
    for line, answer in zip(study.commands[:study.ended], study.answers):
        made = pieces(line, answer, turns)
        parts.append(split_exec(line, answer, turns, answer[0].split()[1]) if made is None else made)
    told = study.measured()
    probes = [[command("stats"), command("list")] + [command(f"regs {p}") for p in processes(listed)[0]] for _, _, listed in told]
    own = study.with_each(lambda k: probes[k])
    # the first command whose pieces come to another state is kept whole, and then it is tried again
    while True:
        answers, _ = study.run([one for part, probe in zip(parts, probes) for one in part + probe])
        at, differs = 0, None
        for k, (part, probe) in enumerate(zip(parts, probes)):
            said, state = answers[at:at + len(part)], answers[at + len(part):at + len(part) + len(probe)]
            at += len(part) + len(probe)
            if len(part) > 1 and (not all(said) or joined(said) != own[k][0] or state != own[k][1]):
                differs = k
                break
        if differs is None:
            break
        line = study.commands[differs]
        kept_whole.append(f"line {line.number}, `{printable(line.text.strip())}`, in samples of {turns} turns gives another report, so it stays whole"
                          "; a `run` of several processes can be split where N is a multiple of the quantum times their number")
        parts[differs] = [line]
    lines = [one for part in parts for one in part]
    made = studies.Study(lines, study.folder, study.program, study.words, study.name)
    if made.status == 0 and study.status != 0:
        made.status = study.status
    return made, kept_whole


def refuse_mixed_speculations(study):
    """Fails where a process that may speculate by itself is speculating behind a command: a checkpoint can't stand in the place of that,
    since what the process asks for later hangs on it."""
    if "--calls" not in study.words:
        return
    for line, (_, _, listed) in zip(study.commands, study.measured()):
        if processes(listed)[1]:
            raise Failed(f"behind line {line.number} a process that may speculate by itself is speculating, so copies of whole pages aren't shown")


def promoted(name, kept, numbers, line):
    """Commands by which a checkpoint's pages are copied whole: a process stands for it in between, and is kept meanwhile. The checkpoint
    has the same number behind them."""
    if not numbers:
        raise Failed(f"line {line.number} imports where there is no process, so copies of whole pages aren't shown")
    process = numbers[0]
    return [command(text) for text in (f"checkpoint {process} {kept}", f"restore {process} {name}", f"promote {process} all", f"forget {name}",
                                       f"checkpoint {process} {name}", f"restore {process} {kept}", f"forget {kept}")]


def copies(study):
    """The units behind each command on a machine that copies a whole page at the first store to it."""
    done = study.commands[:study.ended]
    if any(line.startswith("full ") for answer in study.answers for line in answer):
        raise Failed("a line of the report is `full`, so copies of whole pages aren't shown")
    refuse_mixed_speculations(study)
    names = {name for line in done for name in line.words}
    kept, added = "speculation-of-", []
    while any(name.startswith(kept) for name in names):
        kept += "-"
    commands, places, speculated, before = [], [], False, set()
    for k, line in enumerate(done):
        first, rest, measured = line.words[0], line.words[1:], study.measured()[k][2]
        if is_done(study.answers[k]):
            if first in MAKES and speculated:
                raise Failed(f"line {line.number} makes a process after a speculation, so copies of whole pages aren't shown")
            process = str(scripts.number_in(rest[0])) if rest else ""
            if first == "speculate":
                speculated = True
                commands += [command(f"checkpoint {process} {kept}{process}")]
            elif first == "commit":
                commands += [command(f"forget {kept}{process}")]
            elif first == "discard":
                commands += [command(f"restore {process} {kept}{process}"), command(f"forget {kept}{process}")]
            elif first == "drop" and process in before:
                commands += [line, command(f"forget {kept}{process}")]
            elif first == "dedup":
                # how many pages it shares may differ, since pages that share a frame in part don't here
                commands += [line]
            elif first not in PRINTS + ("promote",):
                places.append((k, len(commands)))
                commands += [line]
            if first == "import":
                commands += promoted(rest[0], kept, processes(measured)[0], line)
            if first in TURNS + ("poke", "dedup"):
                commands += [command(f"promote {p} all") for p in processes(measured)[0]]
        before = processes(measured)[1]
        added.append(len(commands))
        commands += [command("stats")]
    answers, _ = study.run(commands, [word for word in study.words if not word.startswith("--frames")] + ["--frames=65536"])
    if any(answer and answer[0].startswith("full ") for answer in answers):
        raise Failed("copies of whole pages need more than 65,536 frames")
    for k, place in places:
        if without_saved(answers[place]) != without_saved(study.answers[k]):
            raise Failed(f"line {done[k].number} of the script is answered otherwise where whole pages are copied")
    return [counts(answers[place][0])[0] for place in added]


def interleaved(study):
    answers, ended = iter(study.answers), False
    for line in study.lines:
        print(f"{line.number:4}  {printable(line.text)}".rstrip())
        if line.has_command:
            found = next(answers)
            for said in found:
                print(f"          {said}")
            if not found and not ended:
                ended = True
                print(f"          (the report ends before this command: status {study.status})")


class Row:
    """A command with what there is behind it: units, lines, hits and misses, the units where whole pages are copied, or None, and its lines
    of the report."""

    def __init__(self, line, told, copied, answer):
        self.number, self.text, self.copied, self.answer = line.number, " ".join(line.words), copied, answer
        (self.units, self.lines), (self.hits, self.misses) = counts(told), lookups(told)

    def mark(self):
        """What wasn't done of it, or nothing."""
        return next((line for line in self.answer if line.startswith(("refused ", "full "))), "")


def all_rows(study, call):
    """A row for each command that was done or refused."""
    copied = copies(study) if call.copies else [None] * study.ended
    made = [Row(line, told, whole, answer)
            for line, (told, _), whole, answer in zip(study.commands, study.told(), copied, study.answers)]
    if call.since is not None:
        base = next((row for row in made if row.number == call.since), None)
        if base is None:
            raise Failed(f"line {call.since} of the script has no command that is done")
        units, lines, whole = base.units, base.lines, base.copied
        for row in made:
            row.units, row.lines = row.units - units, row.lines - lines
            row.copied = None if row.copied is None else row.copied - whole
    return made


def rows(study, call):
    """The rows of the table, and the points of the chart."""
    made = [row for row in all_rows(study, call) if row.text.split()[0] not in PRINTS]
    if call.only is not None:
        words = call.only.split()
        made = [row for row in made if row.text.split()[:len(words)] == words]
        first = 0 if made and made[0].number == call.since else 1
        for number, row in enumerate(made, first):
            row.number = number
    if not made:
        raise Failed("no command is left to be shown")
    return made


def table(made, call):
    first = "line" if call.only is None else "no."
    width = max(len(printable(row.text)) for row in made)
    width = max(len("command"), min(width, 40))
    copied = made[0].copied is not None
    print(f"{first:>5}  {'command':{width}}  {'units':>7}  {'lines':>7}" + ("  whole pages" if copied else ""))
    for row in made:
        text = f"{row.number:5}  {printable(row.text)[:width]:{width}}  {row.units:7}  {row.lines:7}" + (f"  {row.copied:11}" if copied else "")
        print(f"{text}  {row.mark()}".rstrip())


def as_csv(study, call):
    with studies.output(call.csv) as file:
        out = csv.writer(file, lineterminator="\n")
        out.writerow(["line", "command", "units", "lines", "hits", "misses", "whole_page_units", "answer"])
        made = all_rows(study, call)
        for row in made:
            out.writerow([row.number, printable(row.text), row.units, row.lines, row.hits, row.misses,
                          "" if row.copied is None else row.copied, row.mark() or row.answer[-1]])
    if call.csv != "-":
        print(f"{call.csv}: {len(made)} rows")


def held(study):
    if not study.ended:
        raise Failed("no command is done")
    units, lines, listed = study.measured()[-1]
    numbers, _ = processes(listed)
    done = study.commands[:study.ended]
    print(f"{'alone':32}  {'units':>7}  {'lines':>7}")
    for text, name in [(f"drop {p}", f"process {p}") for p in numbers] + [(f"forget {c}", f"checkpoint {c}") for c in checkpoints(listed)]:
        answers, _ = study.run(done + [command(text), command("stats")])
        left_units, left_lines = counts(answers[-1][0])
        print(f"{name:32}  {units - left_units:7}  {lines - left_lines:7}")
    print(f"{'all, with what is shared':32}  {units:7}  {lines:7}")


def escaped(text):
    return text.replace("&", "&amp;").replace("<", "&lt;").replace(">", "&gt;")


def with_commands_beside(svg, made, first):
    """A chart with the list of its commands at its right, in columns: each with the number that stands below the chart."""
    width, height, row_height = 860, 460, 14
    each = max((height - 40) // row_height, -(-len(made) // 4))
    longest = max(len(row.text[:30]) for row in made)
    column = 7 * (longest + 7)
    whole, tall = width + column * -(-len(made) // each) + 10, max(height, 40 + each * row_height)
    texts = []
    for at, row in enumerate(made):
        x, y = width + 10 + column * (at // each), 30 + row_height * (at % each)
        texts.append(f'<text x="{x}" y="{y}" font-family="monospace" font-size="11" fill="#222222" xml:space="preserve">'
                     f"{at + first:>4}  {escaped(printable(row.text)[:30])}</text>")
    svg = re.sub(r'viewBox="0 0 \d+ \d+"', f'viewBox="0 0 {whole} {tall}"', svg, count=1)
    svg = re.sub(r'(<svg[^>]*?)width="\d+" height="\d+"', rf'\1width="{whole}" height="{tall}"', svg, count=1, flags=re.S)
    under = f'<rect x="0" y="0" width="{whole}" height="{tall}" fill="#ffffff"/>'
    at = svg.index("</desc>") + len("</desc>")
    return svg[:at] + under + svg[at:].replace("</svg>", "\n".join(texts) + "\n</svg>")


def tics(made, call, first):
    """What stands below the points: the commands where they are few, else their numbers."""
    if call.only is not None or len(made) > MOST_NAMED:
        return "set xtics autofreq"
    named = ", ".join(f"{quoted(row.text[:30])} {at}" for at, row in enumerate(made, first))
    return f"set xtics rotate by -40 noenhanced ({named})"


def quoted(text):
    return "'" + text.replace("'", "''") + "'"


def chart(made, call):
    gnuplot = shutil.which("gnuplot")
    if not gnuplot:
        raise Failed("there is no gnuplot here, so the chart isn't drawn (on Debian: apt-get install gnuplot-nox)")
    title = call.title or f"Units and lines: {call.script}"
    axis = call.axis or ("command" if call.only is None else f"command `{call.only}`")
    first = made[0].number if call.only is not None else 1
    points = "".join(f"{at} {row.units} {row.lines} {row.copied if row.copied is not None else 'NaN'}\n" for at, row in enumerate(made, first))
    copied = made[0].copied is not None
    draws = ["$points using 1:2 with steps lw 3 lc rgb '#1b6ca8' title 'units'"]
    if copied:
        draws.append("$points using 1:4 with steps lw 3 dt 2 lc rgb '#c0392b' title 'units where whole pages are copied'")
    draws.append("$points using 1:3 axes x1y2 with steps lw 1.5 lc rgb '#888888' title 'lines in overlays (right)'")
    text = "\n".join([
        "set terminal svg size 860,460 dynamic font 'sans-serif,13' background '#ffffff'",
        "set output",
        "$points << EOD", points + "EOD",
        f"set title {quoted(title)} noenhanced",
        f"set xlabel {quoted(axis)} noenhanced",
        "set ylabel 'units of 256 bytes'", "set y2label 'lines of 64 bytes'",
        "set yrange [0:*]", "set y2range [0:*]", "set ytics nomirror", "set y2tics", f"set xrange [{first - 0.5}:{first + len(made) - 0.5}]",
        tics(made, call, first), "set grid ytics lc rgb '#dddddd'", "set key outside below center horizontal noenhanced",
        "plot " + ", ".join(draws), ""])
    done = subprocess.run([gnuplot], input=text.encode(), stdout=subprocess.PIPE, stderr=subprocess.PIPE, check=False)
    if done.returncode or b"<svg" not in done.stdout:
        raise Failed(f"gnuplot drew nothing: {done.stderr.decode(errors='replace').strip()[:200]}")
    last = made[-1]
    said = f"From {made[0].units} units after `{made[0].text}` to {last.units} after `{last.text}`"
    if call.only is not None:
        said = f"{axis}: from {made[0].units} units at {made[0].number} to {last.units} at {last.number}"
    if copied:
        said += f"; where whole pages are copied, from {made[0].copied} to {last.copied}"
    svg = re.sub(r"<title>.*?</title>\s*<desc>.*?</desc>", lambda _: f"<title>{escaped(title)}</title>\n<desc>{escaped(said)}.</desc>",
                 done.stdout.decode(), count=1, flags=re.S)
    if call.only is None and len(made) > MOST_NAMED:
        svg = with_commands_beside(svg, made, first)
    with open(call.chart, "w", encoding="utf-8") as out:
        out.write("\n".join(line.rstrip() for line in svg.split("\n")))
    print(f"{call.chart}: {len(made)} points")


def main():
    call = words().parse_args()
    if not (call.answers or call.table or call.held or call.chart or call.csv):
        call.answers = call.table = call.held = True
    study = studies.Study.of_call(call, call.until)
    whole, said = study, []
    if call.samples:
        study, said = sampled(study, call.samples)
    parts = [(call.answers, lambda: interleaved(whole)), (call.table, lambda: table(rows(study, call), call)), (call.held, lambda: held(study)),
             (call.chart, lambda: chart(rows(study, call), call)), (call.csv, lambda: as_csv(study, call))]
    wanted = [part for is_wanted, part in parts if is_wanted]
    for number, part in enumerate(wanted):
        if number:
            print(flush=True)
        try:
            part()
        except Failed as error:
            said.append(str(error))
        except BrokenPipeError:
            raise
        except OSError as error:
            said.append(f"{error.filename or 'standard output'}: {error.strerror}")
    sys.stdout.flush()
    if whole.cut_short():
        said.append(whole.cut_short())
    for text in said:
        print(f"figures: {text}", file=sys.stderr)
    return 1 if said else 0


if __name__ == "__main__":
    studies.call("figures", main)
