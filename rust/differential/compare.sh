#!/bin/bash
# compare.sh OLD NEW [LOAD..]: two archives of the library on the loads of the benchmark, in turns. OLD and NEW are folders with a libvutaroi.a, or programs bench
# that are built already, with commas between, as where the machine of the archive has another count of numbers and needs the wrapper of its own version.
# An archive is linked four times, its code 16 bytes further on each time: by that alone the same code takes up to a sixth more or less time on some loads.
# BUILD=1: nothing is run; the programs of OLD and NEW are printed.
set -eu
[ $# -ge 2 ] || { echo 'usage: compare.sh OLD NEW [LOAD..]' >&2; exit 2; }
here=$(dirname "$(readlink -f "$0")")
folder=${CARGO_TARGET_DIR:-$here/target}/compare

# the archive of a folder with its code so many bytes further on
placed() {
    rm -rf "$3"
    mkdir -p "$3"
    printf '.text\n.p2align 6\n.fill %d,1,0x90\n.section .note.GNU-stack,"",@progbits\n' "$2" | gcc -c -x assembler -o "$3/gap.o" -
    echo 'SECTIONS { .text : { gap.o(.text) *(.text .text.*) } }' >"$3/order"
    (cd "$3" && ar x "$1/libvutaroi.a" && ld -r -T order -o placed.o gap.o vutaroi.o && ar rcs libvutaroi.a placed.o)
}

# the programs bench of an archive
built() {
    if [ ! -d "$1" ]; then
        echo "$1"
        return
    fi
    programs=
    for gap in 0 16 32 48; do
        placed "$(readlink -f "$1")" $gap "$folder/$2-$gap"
        VUTAROI_LIB_DIR=$folder/$2-$gap cargo build --release --offline --quiet --manifest-path "$here/Cargo.toml" --target-dir "$folder/$2" --bin bench
        cp "$folder/$2/release/bench" "$folder/$2-$gap/bench"
        programs=$programs${programs:+,}$folder/$2-$gap/bench
    done
    echo "$programs"
}

old=$(built "$1" old)
new=$(built "$2" new)
shift 2
if [ -n "${BUILD:-}" ]; then
    printf '%s\n' "$old" "$new"
    exit
fi
# the program that lets them run in turns
cargo build --release --offline --quiet --manifest-path "$here/Cargo.toml" --target-dir "$folder/new" --bin compare
exec "$folder/new/release/compare" "$old" "$new" "$@"
