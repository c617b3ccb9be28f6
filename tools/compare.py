"""Compares the report of an exercise with the answer's, command by command. lab/compare --help says how."""
import os
import re
import sys

import scripts
import studies
from studies import printable

ABOUT = """Runs the script of an exercise, lab/NAME/script, with the words of the answer where it has some, and compares its report with that of
lab/answers/NAME: which lines differ, each with the command that it answers. The turns of `ran T ended` and the like, and the hits and
misses of `stats`, may differ, since each program has its own number of instructions."""
MORE = "Status: 0 where none differs, 1 where some do, 2 where there is nothing to compare."


def words():
    words = studies.parser("compare", ABOUT, MORE)
    words.prog = "lab/compare"
    words.add_argument("lab", help=studies.argparse.SUPPRESS)
    words.add_argument("name", metavar="NAME", help="the exercise: `fork`, `speculation` and so on")
    words.usage = "lab/compare [-h] NAME"
    return words


def nothing(lab, name):
    """Why there is nothing to compare, or None."""
    answers = os.path.join(lab, "answers")
    if not os.path.isdir(answers):
        return "the answers aren't here: lab/answers was taken away, so there is nothing to compare with"
    known = ", ".join(sorted(folder for folder in os.listdir(answers) if os.path.exists(os.path.join(answers, folder, "report"))))
    if not os.path.exists(os.path.join(answers, name, "report")):
        return f"lab/answers has no answer to `{name}`: it has {known}"
    if not os.path.exists(os.path.join(lab, name, "script")):
        return f"lab/{name} has no script; the exercise says what to put there"
    return None


def without_counts(text):
    """A line of the report without what each build has its own of."""
    text = re.sub(r"^ran \d+ (ended|idle|break)$", r"ran T \1", text)
    return re.sub(r" hits \d+ misses \d+$", " hits H misses M", text)


def commands_of(path):
    with open(path, "rb") as file:
        return [line for line in scripts.lines_of(file.read()) if line.has_command]


def program_words_of(answer):
    """The words that an exercise's program is called with: those of the file `words`, one a line, where there is one."""
    path = os.path.join(answer, "words")
    if not os.path.exists(path):
        return []
    with open(path, encoding="utf-8") as file:
        return file.read().split()


def differing(given, wanted):
    """The places at which two answers differ, as pairs of lines, None where one has no more."""
    long = max(len(given), len(wanted))
    pairs = zip(given + [None] * (long - len(given)), wanted + [None] * (long - len(wanted)))
    return [(mine, other) for mine, other in pairs if mine is None or other is None or without_counts(mine) != without_counts(other)]


def compare(lab, name):
    """Says what differs, and answers how many lines do."""
    folder, answer = os.path.join(lab, name), os.path.join(lab, "answers", name)
    theirs = commands_of(os.path.join(answer, "script"))
    with open(os.path.join(answer, "report"), encoding="latin-1") as file:
        wanted = scripts.split(theirs, file.read().splitlines())
    with open(os.path.join(folder, "script"), "rb") as file:
        study = studies.Study(scripts.lines_of(file.read()), folder, words=program_words_of(answer), name=f"lab/{name}/script")
    count = 0
    for k, line in enumerate(study.commands):
        if k >= len(theirs) or line.words != theirs[k].words:
            other = f"the answer's is `{' '.join(theirs[k].words)}`" if k < len(theirs) else "the answer's script has ended"
            print(f"line {line.number} is `{printable(line.text.strip())}`, and {other}: the scripts differ from here")
            return count + 1
        for mine, other in differing(study.answers[k], wanted[k]):
            print(f"line {line.number}, `{printable(line.text.strip())}`:")
            print(f"    given     {without_counts(mine) if mine is not None else '(nothing)'}")
            print(f"    expected  {without_counts(other) if other is not None else '(nothing)'}")
            count += 1
    if len(study.commands) < len(theirs):
        print(f"the script ends before `{' '.join(theirs[len(study.commands)].words)}`")
        count += 1
    if study.cut_short():
        print(study.cut_short())
        count += 1
    return count


def main():
    call = words().parse_args()
    why = nothing(call.lab, call.name)
    if why:
        print(f"compare: {why}", file=sys.stderr)
        return 2
    count = compare(call.lab, call.name)
    print(f"{call.name}: as expected" if not count else f"{call.name}: {count} {'place differs' if count == 1 else 'places differ'}")
    return 1 if count else 0


if __name__ == "__main__":
    studies.call("compare", main)
