#!/bin/sh
# Runs each example, and each exercise of lab/answers, and compares its report with the one that is expected.
#
#   examples/check.sh                         with bin/overlay-run of this repository
#   examples/check.sh PROGRAM                 with another program
#   examples/check.sh --rebuilt [PROGRAM]     and then once more with the programs as each RISC-V compiler that is there builds them
#
# An example is a folder with a file `script` and a file `report`: the script is run in that folder, with the words of the file `words`,
# one a line, where there is one. Or it is a folder with a file NAME.words and a file NAME.report for each of its runs: the program gets
# these words, and nothing on standard input.
#
# Where a folder has a file `second.script` too, with a report `second.report`, that is run behind the first, with the images that the first
# printed: each `export NAME BASE` gives a file NAME-BASE.img of its lines. Where the folder has such a file, it has to be the same.
#
# A built program has its own number of instructions. So the reports of rebuilt ones are compared without T of `ran T ended`, `ran T idle`
# and `ran T break`, without the hits and misses of `stats`, and without what an image has; all else has to be the same. They are built in a folder of their own, at
# -O0, -O1 and -O2. The program of `debugger` isn't: its script goes with the stored file.
#
# Where Python is there, the tools are tried too: each script is checked, and what the calls of tools/tried print is compared with what
# is stored there. A page is clicked through where Chromium is there, and a chart drawn where gnuplot is.
#
# The last line counts the runs. Ends with 0 where every report is the expected one, 1 where some differ, 2 where the program
# can't be run.

here=$(cd "$(dirname "$0")" && pwd)
top=$(dirname "$here")
rebuilt=
if [ "${1:-}" = --rebuilt ]; then
    rebuilt=yes
    shift
fi
program=${1:-$top/bin/overlay-run}
case $program in
    /*) ;;
    *) program=$(pwd)/$program ;;
esac

# The empty script has an empty report and status 0.
if ! "$program" < /dev/null; then
    echo "the program can't be run: $program"
    exit 2
fi

passed=0
failed=0

# The counts of turns and of look-ups are left out of a report, and what an image has.
without_counts() {
    sed -e 's/^ran [0-9]* \(ended\|idle\|break\)$/ran T \1/' -e 's/ hits [0-9]* misses [0-9]*$/ hits H misses M/' \
        -e 's/^\(exported .*\) [0-9]*$/\1 LEN/' -e '/^image /d'
}

# Counts a run: its name, the file of the report that is expected, and the report that was given, with an x behind it.
# The x keeps the shell from dropping the line ends at the end.
count() {
    if [ "$3" = "$(cat "$2" && echo x)" ]; then
        passed=$((passed + 1))
        return
    fi
    failed=$((failed + 1))
    if [ "$(printf '%s' "$3" | without_counts)" = "$({ cat "$2" && echo x; } | without_counts)" ]; then
        echo "$1: differs in counts of turns or look-ups or in an image alone, as a rebuilt program does: see --rebuilt"
    else
        echo "$1: differs"
    fi
}

# Counts a run of a rebuilt program.
count_rebuilt() {
    if [ "$(printf '%s' "$3" | without_counts)" = "$({ cat "$2" && echo x; } | without_counts)" ]; then
        passed=$((passed + 1))
    else
        failed=$((failed + 1))
        echo "$1: differs"
    fi
}

# Where the answers of the exercises were taken away, the examples alone are run.
[ -d "$top/lab/answers" ] || echo "no lab/answers here: the exercises aren't run"

# Runs the script of a folder, or a further one of it, with its words. A word has no blank in it and no pattern, so it may stand without
# quotes.
run_script() {
    (cd "$1" && "$program" $([ ! -f words ] || cat words) < "${2:-script}")
}

# Puts the images that a report has into a folder, each into a file of its own. The report has an x behind it.
put_images() {
    printf '%s' "${2%x}" | (cd "$1" && awk '/^exported / { file = $2 "-" $3 ".img" } /^image / { print > file }')
}

# Counts the second run of a folder, in a copy of it with the images that the first run printed.
count_second() {
    copy=$(mktemp -d)
    cp -R "$1/." "$copy"
    rm -f "$copy"/*.img
    put_images "$copy" "$2"
    for image in "$1"/*.img; do
        [ ! -f "$image" ] || count "${image#"$top"/}" "$image" "$(cat "$copy/${image##*/}" 2>/dev/null && echo x)"
    done
    given=$(run_script "$copy" second.script && echo x)
    count "${1#"$top"/}, the second run" "$1/second.report" "$given"
    rm -rf "$copy"
}

for script in "$here"/*/script "$top"/lab/answers/*/script; do
    [ -f "$script" ] || continue
    folder=$(dirname "$script")
    given=$(run_script "$folder" && echo x)
    count "${folder#"$top"/}" "$folder/report" "$given"
    [ ! -f "$folder/second.script" ] || count_second "$folder" "$given"
done

for words in "$here"/*/*.words; do
    run=${words%.words}
    given=$("$program" $(cat "$words") < /dev/null && echo x)
    count "${run#"$top"/}" "$run.report" "$given"
done

# Tries a tool: makes its calls, in a room of its own.
try_tool() {
    room=$rooms/$(basename "$1" .call)
    mkdir "$room"
    { (cd "$top" && room=$room program=$program sh "$1" 2>&1); echo x; } > "$room.given"
}

# Counts the tries of a tool: what its calls print, with the status of each that says it, has to be what is stored beside them.
count_tool() {
    name=$(basename "$1" .call)
    count "tools/$name" "${1%.call}.said" "$(cat "$rooms/$name.given")"
    [ ! -f "$rooms/$name/notes" ] || sort -u "$rooms/$name/notes"
}

if "$top/tools/with-python" -c '' 2>/dev/null; then
    set -- "$here"/*/script "$here"/*/second.script
    [ -d "$top/lab/answers" ] && set -- "$@" "$top"/lab/answers/*/script
    if "$top/tools/check-script" "$@"; then
        passed=$((passed + 1))
    else
        failed=$((failed + 1))
        echo "tools/check-script: finds something wrong with the scripts"
    fi
    rooms=$(mktemp -d)
    trap 'rm -rf "$rooms"' EXIT
    set -- "$top"/tools/tried/*.call
    for calls in "$@"; do
        try_tool "$calls" &
    done
    wait
    for calls in "$@"; do
        if [ "$(basename "$calls")" != compare.call ] || [ -d "$top/lab/answers" ]; then
            count_tool "$calls"
        fi
    done
else
    echo "no Python 3.8 or later here: the tools aren't tried"
fi

# Builds the programs with a compiler at a level, runs what they are for, and counts the runs.
rebuild() {
    compiler=$1
    level=$2
    built=$folders/$((number = number + 1))
    mkdir "$built"
    cp -r "$here" "$top/lab" "$built"
    for part in examples lab; do
        if ! make -s -B -C "$built/$part" programs COMPILER="$compiler" LEVEL="$level"; then
            failed=$((failed + 1))
            echo "$compiler $level: not built"
            return
        fi
    done
    for script in "$built"/examples/*/script "$built"/lab/answers/*/script; do
        [ -f "$script" ] || continue
        folder=$(dirname "$script")
        name=${folder#"$built"/}
        [ "$name" = examples/debugger ] && continue
        given=$(run_script "$folder" && echo x)
        count_rebuilt "$name, $compiler $level" "$folder/report" "$given"
        [ -f "$folder/second.script" ] || continue
        put_images "$folder" "$given"
        given=$(run_script "$folder" second.script && echo x)
        count_rebuilt "$name, the second run, $compiler $level" "$folder/second.report" "$given"
    done
}

if [ -n "$rebuilt" ]; then
    number=0
    folders=$(mktemp -d)
    trap 'rm -rf "$folders" "${rooms:-}"' EXIT
    for compiler in riscv64-linux-gnu-gcc riscv64-unknown-elf-gcc 'clang --target=riscv64-linux-gnu -fuse-ld=lld'; do
        if ! command -v make >/dev/null; then
            echo "no make here: nothing is built with $compiler"
        elif ! command -v "${compiler%% *}" >/dev/null; then
            echo "no ${compiler%% *} here: nothing is built with it"
        elif [ "${compiler%% *}" = clang ] && ! command -v ld.lld >/dev/null; then
            echo "no ld.lld here: nothing is built with clang"
        else
            for level in -O0 -O1 -O2; do
                rebuild "$compiler" "$level"
            done
        fi
    done
    echo "debugger: its script names addresses of the stored file, so it isn't rebuilt"
fi

echo "examples: $passed passed, $failed failed"
[ "$failed" = 0 ]
