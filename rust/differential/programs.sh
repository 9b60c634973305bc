#!/bin/bash
# The program strokes beside strokes-baseline on every load, and beside hp2xx (Debian's package) on the PD moves, where that is installed.
# All read a file and write text, to /dev/null where they are timed, since to write a file is the system's work; hp2xx and strokes are timed both ways. The lines of
# the first two are compared. Least processor seconds, user and system, of several runs in turns.
# Needs target/bin/strokes (tools/build strokes), target/staticlib (tools/build vutaroi) and cargo.
set -eu
export LC_ALL=C
here=$(dirname "$(readlink -f "$0")")
strokes=$here/../../target/bin/strokes
folder=$(mktemp -d)
trap 'rm -r "$folder"' EXIT
cd "$folder"

# a program of one of the Rust crates
built() {
    cargo build --release --offline --quiet --manifest-path "$here/../$1/Cargo.toml" --target-dir "$folder/cargo" --bin "$2"
    echo "$folder/cargo/release/$2"
}

# processor seconds of a command with the load as its standard input, its text to the sink
sink=/dev/null
seconds() {
    local TIMEFORMAT='%U %S'
    { time "$@" <load >"$sink" 2>said; } 2>&1 | awk '{ print $1 + $2 }'
}

# least seconds of two commands, in turns; each is one word or the name of a function
turns() {
    rm -f first second
    for _ in 1 2 3 4 5; do
        seconds "$1" >>first
        seconds "$2" >>second
    done
    awk -v name="$3" -v a="$(sort -n first | head -n 1)" -v b="$(sort -n second | head -n 1)" \
        'BEGIN { printf "%s %.2f s and %.2f s, ratio %.2f\n", name, a, b, a / b }'
}

bench=$(built differential bench)
baseline=$(built baseline strokes-baseline)
ours() { "$strokes" -32768 -32768 32767 32767; }
theirs() { "$baseline" -32768 -32768 32767 32767; }
# -m gpt (x y a line) is the quickest mode of hp2xx that writes every line.
other() { hp2xx -q -m gpt -f - load; }

for name in pd pu decimals turned relative circles arcs polygons rink refusals replies; do
    "$bench" --write "$name" >load
    turns ours theirs "$name: strokes and strokes-baseline"
    ours <load >lines
    theirs <load >text
    cmp lines text
done
if command -v hp2xx >/dev/null; then
    "$bench" --write pd >load
    turns other ours 'pd: hp2xx and strokes'
    sink=written
    turns other ours 'pd: hp2xx and strokes, into a file'
fi
