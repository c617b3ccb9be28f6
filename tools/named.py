"""A script with names in the place of addresses, and its report with names. tools/named --help says how."""
import studies
import scripts
import symbols
from studies import Failed, printable

ABOUT = """Runs a script in which names may stand for addresses and registers, and shows its report with names: `break 1 unlink_value`,
`dump 1 table+64 32`, `set 1 a0 5`, `set 1 pc main`. The names are those of the files that the script loads; where such a file was
stripped, they are read from one of the same name in the folder of --symbols, built from the same source without -s, and with -g for
lines of the source."""
MORE = """A name stands where an address or a value does, with +N or -N behind it if wanted. Where files that are loaded have it at different
places, it is that of the file of the command's process.

Status: 0 where the script ran to its end, 1 where a name isn't known, or the report ends before the script, 2 where the words of the
call aren't these."""


def words():
    words = studies.parser("named", ABOUT, MORE)
    words.add_argument("--script", dest="script_alone", action="store_true", help="print the script with addresses, and run nothing behind its last name")
    words.add_argument("--answers", action="store_true", help="each line of the script before its lines of the report")
    words.add_argument("--symbols", metavar="FOLDER", help="where files of the same names stand that weren't stripped")
    studies.add_program_words(words)
    words.add_argument("script", metavar="SCRIPT", help="a file, or `-` for standard input")
    return words


class Resolved:
    """A script with addresses for its names. Where a name has several, the commands before are run, to see which file the process is of."""

    def __init__(self, lines, names, run):
        self.names, self.run, self.lines, self.files = names, run, [], []
        for line in lines:
            self.lines.append(self.resolved(line) if line.has_command else line)
            if line.has_command and line.words[0] in ("load", "exec") and len(line.words) > 1:
                self.files.append(line.words[1])

    def resolved(self, line):
        if not symbols.named_words(line):
            return line
        try:
            try:
                return symbols.with_addresses(line, self.names, self.files)
            except symbols.Ambiguous:
                return symbols.with_addresses(line, self.names, [self.file_of(line)])
        except (Failed, OSError) as error:
            text = f"{error.filename}: {error.strerror}" if isinstance(error, OSError) else error
            raise Failed(f"line {line.number}: {text}") from None

    def file_of(self, line):
        """The file of the process of a line's command."""
        done = [before for before in self.lines if before.has_command]
        owners = symbols.Owners(self.names.folder)
        for before, answer in zip(done, self.run(done)):
            owners.follow(before, answer)
        file = owners.file_of(scripts.number_in(line.words[1]))
        if file is None:
            raise Failed(f"there is no process {line.words[1]} there, so its names aren't known")
        return file


def shown(study, reader, lines, answers):
    """The lines of the report with names; with `answers` each behind its command, as it was written."""
    owners, given = symbols.Owners(study.folder), iter(study.answers)
    written = {line.number: line for line in lines}
    for line in study.lines:
        if answers:
            print(f"{line.number:4}  {printable(written[line.number].text)}".rstrip())
        if not line.has_command:
            continue
        answer = next(given)
        owners.follow(line, answer)
        for text in answer:
            print((" " * 10 if answers else "") + reader.line(text, line, owners))


def main():
    call = words().parse_args()
    lines = scripts.lines_of(studies.read(call.script))
    folder = call.folder or (studies.folder_of(call.script))
    names = symbols.Names(folder, call.symbols)
    how = (folder, call.program, studies.program_words(call), call.script)
    resolved = Resolved(lines, names, lambda done: studies.Study(done, *how).answers)
    if call.script_alone:
        for line in resolved.lines:
            print(printable(line.text))
        return 0
    study = studies.Study(resolved.lines, *how)
    shown(study, symbols.Reader(names), lines, call.answers)
    if study.cut_short():
        raise Failed(study.cut_short())
    return 0


if __name__ == "__main__":
    studies.call("named", main)
