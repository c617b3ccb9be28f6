#!/bin/sh
# Runs the program once for each of its requests for memory, with that one request refused.
#
#   tests/refuse-memory.sh             with bin/overlay-run of this repository
#   tests/refuse-memory.sh PROGRAM     with another program
#
# A small library, refuse_memory.c, is built by gcc and preloaded; it stands between the program and malloc, calloc and realloc. Each
# run has to end with status 1 and the lines of the first commands, each of them whole, or with status 0 and the whole report. The calls
# of the system that read and write take none of this memory, so no run may end with another status. Ends with 0 where all runs did so,
# 1 where some didn't, 2 where it can't be tried here.

here=$(cd "$(dirname "$0")" && pwd)
program=${1:-$here/../bin/overlay-run}
case $program in
    /*) ;;
    *) program=$(pwd)/$program ;;
esac

room=$(mktemp -d) || exit 2
trap 'rm -rf "$room"' EXIT
if ! gcc -O2 -Wall -shared -fPIC -o "$room/refuse.so" "$here/refuse_memory.c"; then
    echo "gcc is needed, and didn't build the library"
    exit 2
fi

# The file of the program's stored run, in a page that may be written too: the flags of its header are the byte 68.
cp "$here/../crates/overlay_app/data/a.elf" "$room/a.elf" || exit 2
cp "$room/a.elf" "$room/w.elf"
printf '\007' | dd of="$room/w.elf" bs=1 seek=68 conv=notrunc 2> "$room/dd" || exit 2
printf 'again: addi x17, x0, 93\n jal x0, again\n' > "$room/s.s" || exit 2
cd "$room" || exit 2

cat > first <<'END'
load w.elf
fork 1
checkpoint 1 k
break 1 0x10080
restore 1 k
run 10
asm s.s
END

# Each command that takes memory, often enough that what keeps its answers grows; and each other one.
cat > commands <<'END'
load w.elf
map 1 0x20000 70 rw
map 1 0x80000 1 rwx
map 1 0x90000 1 r
poke 1 0x20ffc 0011223344556677
exec a.elf 2
fork 1
fork 2
checkpoint 1 a
checkpoint 3 b
checkpoint 1 c
checkpoint 2 d
checkpoint 3 e
break 1 0x10078
break 1 0x1007c
break 1 0x10080
break 1 0x10084
break 1 0x10088
break 3 0x10080
restore 1 a
restore 3 a
unmap 1 0x30000 3
map 1 0x31000 1 rw
speculate 1
poke 1 0x20000 ff
discard 1
speculate 3
commit 3
promote 1 0x20000
promote 3 all
compact
load w.elf
list
END

failed=0

# Runs a script with no request refused, and then with each of them.
try() {
    script=$1
    shift
    lines=$(wc -l < "$script")
    k=0
    while [ "$k" -le "$lines" ]; do
        head -n "$k" "$script" | "$program" "$@" > "front.$k" 2> said
        k=$((k + 1))
    done
    REFUSE_COUNT=count LD_PRELOAD=$room/refuse.so "$program" "$@" < "$script" > whole 2> said
    if ! cmp -s whole "front.$lines"; then
        echo "$script: another report with the library than without"
        failed=$((failed + 1))
        return
    fi
    requests=$(cat count)
    n=1
    cut=0
    full=0
    wrong=0
    while [ "$n" -le "$requests" ]; do
        REFUSE_MEMORY=$n LD_PRELOAD=$room/refuse.so "$program" "$@" < "$script" > report 2> said
        status=$?
        if [ "$status" -eq 0 ] && cmp -s report whole; then
            full=$((full + 1))
        elif [ "$status" -eq 1 ] && is_front && [ "$(cat said)" = "overlay-run: status 1" ]; then
            cut=$((cut + 1))
        else
            echo "$script: request $n refused: status $status, $(wc -l < report) lines"
            wrong=$((wrong + 1))
        fi
        n=$((n + 1))
    done
    echo "$script${*:+ $*}: $requests requests refused in turn: $cut with status 1 and whole commands, $full with the whole report, $wrong failed"
    failed=$((failed + wrong))
}

# Whether the report is that of the first commands.
is_front() {
    k=0
    while [ "$k" -le "$lines" ]; do
        if cmp -s report "front.$k"; then
            return 0
        fi
        k=$((k + 1))
    done
    return 1
}

try first
try commands
try commands --frames 40 --quantum 3
[ "$failed" -eq 0 ]
