# Read by the scripts beside it: makes both archives, and test programs over them in target/tests.
MARCH=${MARCH:-pentiumpro}
host=target/tests/x86_64
board=target/tests/ia32
flags='-std=c11 -Wall -Wextra -Werror -pedantic -O2 -Iinclude'

# A program with code of $MARCH alone: no C library, and a stack aligned to 4 bytes.
bare="-m32 -march=$MARCH -nostdlib -static -no-pie -fno-pic -mpreferred-stack-boundary=2"
bare="$bare -fno-stack-protector -fcf-protection=none -U_FORTIFY_SOURCE"

fail() {
    echo "${0##*/}: $*" >&2
    exit 1
}

make_archives() {
    mkdir -p "$host" "$board"
    echo 'int main(void) { return 0; }' >"$board/try.c"
    gcc -m32 "$board/try.c" -o "$board/try" 2>/dev/null ||
        fail "gcc -m32 links no program here (Debian's package is gcc-multilib)"
    MARCH=$MARCH PIC=0 ./board32.sh
}

build_host() { # NAME SOURCES
    gcc $flags $2 crates/board_c/out/libboard_c.a -o "$host/$1"
}

build_board() { # NAME SOURCES
    gcc -m32 -no-pie $flags $2 target/ia32/libboard.a -o "$board/$1"
}

build_bare() { # NAME SOURCES
    gcc $bare $flags $2 tests/start.c target/ia32/libboard.a -o "$board/$1"
}
