#!/bin/sh
# Holds the IA-32 library to the x86-64 one: random calls, the published vectors, the host program. Where
# qemu-i386 is there, a part of it again on an emulated processor that has nothing beyond MARCH's code.
set -eu
cd "$(dirname "$0")/.."
. tests/programs.sh

CALLS=${CALLS:-1000000}
SEED=${SEED:-1}
VECTORS=${VECTORS:-crates/test_vectors}
[ -f "$VECTORS/stdin" ] || fail "there are no vectors in $VECTORS"

# ---- The programs ----

make_archives
drawn='tests/draw_call.c tests/draw_candidate.c tests/draw_index.c tests/draw_store.c'
drawn="$drawn tests/draw_update.c tests/index_check.c tests/digest.c tests/update.c tests/random.c"
drawn="$drawn tests/tally.c tests/lines.c"
build_host calls "tests/calls.c $drawn"
build_bare calls "tests/calls.c $drawn"
build_host replay 'tests/replay.c tests/lines.c'
build_bare replay 'tests/replay.c tests/lines.c'
build_host board examples/board.c
build_board board examples/board.c

# ---- The checks; EMULATOR stands before the IA-32 program ----

same_calls() { # CALLS EMULATOR
    "$host/calls" "$1" "$SEED" >"$host/said" || fail "x86-64: $(tail -n 1 "$host/said")"
    $2 "$board/calls" "$1" "$SEED" >"$board/said" || fail "IA-32: $(tail -n 1 "$board/said")"
    cmp "$host/said" "$board/said" || fail "$1 calls from seed $SEED: the two builds differ"
    echo "$1 calls from seed $SEED${2:+ under $2}: both builds give the same $(tail -n 1 "$board/said")"
}

same_vectors() { # PROGRAM
    $1 <"$VECTORS/stdin" >"$board/said" || fail "$1: $(tail -n 1 "$board/said")"
    cmp "$VECTORS/stdout" "$board/said" || fail "$1: other answers than the vectors have"
    echo "vectors by $1: $(tail -n 1 "$board/said"), the answers that are stored"
}

# What the host program writes, and the store that it leaves.
session() { # FOLDER
    rm -f "$1/flash.bin" "$1/update.bin" "$1/wide.bin"
    "$1/board" -o "$1/update.bin" crates/catalogue/stdin read 1
    "$1/board" -o "$1/wide.bin" crates/catalogue/stdin read 3
    "$1/board" "$1/flash.bin" create 2
    "$1/board" -p 650:1 "$1/flash.bin" write "$1/update.bin"
    "$1/board" -p 650:1 "$1/flash.bin" write "$1/update.bin" || true
    "$1/board" -l "$1/flash.bin" load 650 1
    "$1/board" "$1/flash.bin" map
    "$1/board" -p 683:0 "$1/flash.bin" write "$1/wide.bin"
    "$1/board" "$1/flash.bin" map
    cksum <"$1/flash.bin"
}

same_calls "$CALLS" ''
sed '$d' "$board/said"
same_vectors "$host/replay"
same_vectors "$board/replay"
session "$host" >"$host/said"
session "$board" >"$board/said"
cmp "$host/said" "$board/said" || fail "examples/board.c: the two builds differ"
echo "examples/board.c: both builds write the same"

case $MARCH in
i386 | i486) cpu=486 ;;
pentium) cpu=pentium ;;
*) cpu=pentium2 ;;
esac
if command -v qemu-i386 >/dev/null; then
    same_calls $((CALLS / 20)) "qemu-i386 -cpu $cpu"
    same_vectors "qemu-i386 -cpu $cpu $board/replay"
else
    echo "qemu-i386 is not there (Debian's package is qemu-user): nothing is run on an emulated $cpu"
fi
