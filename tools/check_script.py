"""Checks scripts before they are run: which lines are outside the script language, which word of each, and what was expected there; and
which files that they name aren't there, or, where an `import` names them, don't say an image.

usage: tools/check-script [--in FOLDER] [SCRIPT ..]

Without SCRIPT the script is read from standard input. The files that a script names are looked for in the script's own folder, those of
standard input in the folder of the call; --in names another folder. Nothing is run. The forms are read from the sources of the program
(crates/script_text), so they are those that it has; its own answer names the first line that is outside, and no more.

Status: 0 where all is well, 1 where something isn't, 2 where the words of the call aren't these.
"""
import os
import signal
import sys

import images
import scripts
import studies


def nearest(word):
    """A first word of a form that is spelled nearly so, or None."""
    import difflib

    found = difflib.get_close_matches(word.lower(), sorted({first for first, _ in scripts.FORMS}), 1)
    return found[0] if found else None


def outside(line):
    """What is wrong with a line that is outside: the place of the word in its text, and what was expected there."""
    first, rest = line.words[0], line.words[1:]
    candidates = [form for form in scripts.FORMS if form[0] == first]
    if not candidates:
        known = nearest(first)
        hint = f"; is it `{known}`?" if known else ""
        return line.places[0], f"word 1, `{first}`: no command begins so{hint}"
    # how many words of the line fit each form that begins so: the furthest counts
    fitting = []
    for form in candidates:
        count = 0
        while count < min(len(rest), len(form[1])) and scripts.fits(form[1][count], rest[count]):
            count += 1
        fitting.append(count)
    most = max(fitting)
    best = [form for form, count in zip(candidates, fitting) if count == most]
    texts = " or ".join(f"`{scripts.form_text(form)}`" for form in candidates)
    expected = list(dict.fromkeys(scripts.described(form[1][most]) for form in best if len(form[1]) > most))
    if most < len(rest) and not expected:
        comment = "; a comment can't stand behind a command" if rest[most].startswith("#") else ""
        return line.places[1 + most], f"word {2 + most}, `{rest[most]}`: the line has to end before it, as in {texts}{comment}"
    if most < len(rest):
        return line.places[1 + most], f"word {2 + most}, `{rest[most]}`: expected is {', or '.join(expected)}, as in {texts}"
    end = len(line.text)
    return (end, end + 1), f"word {2 + most} isn't there: expected is {', or '.join(expected)}, as in {texts}"


def missing(name, folder):
    """Why a file can't be had, or None."""
    path = os.path.join(folder, name)
    if not os.path.exists(path):
        return "isn't there"
    if os.path.isdir(path):
        return "is a folder"
    if not os.access(path, os.R_OK):
        return "can't be read"
    if os.path.getsize(path) > scripts.MOST_FILE_BYTES:
        return f"has more than {scripts.MOST_FILE_BYTES:,} bytes"
    return None


def no_image(name, folder):
    """Why a file says no image, or None. A pipe with a name isn't read, which would empty it."""
    path = os.path.join(folder, name)
    if not os.path.isfile(path):
        return None
    with open(path, "rb") as file:
        text = file.read()
    try:
        images.said(text)
    except studies.Failed as error:
        return f"says no image: {error}"
    return None


def check(name, script, folder):
    """Says what is wrong with a script, and answers how many things are."""
    wrong = 0
    lines = scripts.lines_of(script)
    if len(script) > scripts.MOST_SCRIPT_BYTES or len(lines) > scripts.MOST_SCRIPT_LINES:
        print(f"{name}: has {len(script):,} bytes and {len(lines):,} lines; "
              f"it may have {scripts.MOST_SCRIPT_BYTES:,} and {scripts.MOST_SCRIPT_LINES:,}")
        wrong += 1
    asked = set()
    for line in lines:
        if not line.has_command:
            continue
        form = line.form()
        if form is None:
            (begin, end), what = outside(line)
            text = scripts.printable(line.text)
            print(f"{name}:{line.number}: outside: {scripts.printable(what)}")
            if len(text) <= 150:
                print(f"    {text}\n    {' ' * begin}{'^' * max(1, end - begin)}")
            wrong += 1
        elif "file_word" in form[1]:
            file = line.words[1 + form[1].index("file_word")]
            is_image = line.words[0] == "import"
            if (file, is_image) not in asked:
                asked.add((file, is_image))
                why = missing(file, folder) or is_image and no_image(file, folder)
                if why:
                    print(f"{name}:{line.number}: file: `{file}` {why}, looked for in {folder}")
                    wrong += 1
    return wrong


def main():
    words, folder, names = sys.argv[1:], None, []
    while words:
        word = words.pop(0)
        if word in ("--help", "-h"):
            print(__doc__.strip())
            return 0
        if word == "--in" and words:
            folder = words.pop(0)
        elif word.startswith("-"):
            print(f"check-script: `{word}` isn't a word of this call; see tools/check-script --help", file=sys.stderr)
            return 2
        else:
            names.append(word)
    wrong = 0
    try:
        if not names:
            wrong += check("standard input", sys.stdin.buffer.read(), folder or ".")
        for name in names:
            with open(name, "rb") as file:
                wrong += check(name, file.read(), folder or os.path.dirname(name) or ".")
    except OSError as error:
        print(f"check-script: {error.filename}: {error.strerror}", file=sys.stderr)
        return 2
    return 1 if wrong else 0


if __name__ == "__main__":
    signal.signal(signal.SIGPIPE, signal.SIG_DFL)
    sys.exit(main())
