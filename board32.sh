#!/bin/sh
# Makes target/ia32/libboard.a, the board's library for the IA-32 processor that MARCH names. PIC=1 makes
# its code position-independent. A run that fails leaves no archive.
#
# `rt lib` proves the library, lowers it to one LLVM module and has the kit's clang compile that for x86-64.
# Here it runs once more, from a folder of links to the kit, in which a clang of ours keeps the module and
# hands on to the kit's. The kit's clang then compiles the same module for IA-32.
set -eu
cd "$(dirname "$0")"
LC_ALL=C
export LC_ALL

fail() {
    echo "board32: $*" >&2
    exit 1
}

# ---- What is asked for, and what is there ----

archive=target/ia32/libboard.a
rm -f "$archive"

# Instructions, as objdump names them: the 386's, and what came with the 486 and the Pentium Pro. None of
# them uses a floating-point or vector register. ud2 is there to be unknown.
known='(mov|lea|xchg|push|pop|add|adc|sub|sbb|cmp|test|and|or|xor|not|neg|inc|dec|mul|imul|div|idiv)[bwl]?'
known="$known|(shl|shr|sar|rol|ror|rcl|rcr|shld|shrd|bt|bts|btr|btc|bsf|bsr|movs|stos|lods|scas|cmps)[bwl]?"
known="$known|mov[sz](bl|wl|bw)|cltd|cwtl|cbtw|cwtd|call|ret|leave|jmp|j[a-z]+|set[a-z]+|nop|ud2"
since_486='bswap|xadd|cmpxchg'
since_pentiumpro='cmov[a-z]+|nop[wl]'

march=${MARCH:-pentiumpro}
case $march in
i386) ;;
i486 | pentium) known="$known|$since_486" ;;
pentiumpro | pentium2) known="$known|$since_486|$since_pentiumpro" ;;
*) fail "MARCH=$march: not i386, i486, pentium, pentiumpro or pentium2 (later processors run pentiumpro's code)" ;;
esac
case ${PIC:-0} in
0) pic=-fno-pic needed='memmove|memset' ;;
1) pic=-fPIC needed='memmove|memset|_GLOBAL_OFFSET_TABLE_' ;;
*) fail "PIC=$PIC: neither 0 nor 1" ;;
esac

rt=$(command -v rt) || fail "rt, of the Rattle toolchain, is not in PATH"
for tool in awk nm objcopy objdump; do
    command -v "$tool" >/dev/null || fail "$tool is not in PATH (nm, objcopy and objdump are in Debian's binutils)"
done
kit=$(dirname "$(dirname "$(readlink -f "$rt")")")
for tool in clang llvm-ar; do
    [ -x "$kit/toolchain/bin/$tool" ] || fail "no toolchain/bin/$tool beside rt, in $kit"
done
clang=$kit/toolchain/bin/clang

# ---- The proved module ----

work=$(mktemp -d)
trap 'rm -rf "$work" "$archive.new"' EXIT
trap 'exit 1' HUP INT TERM

proved=crates/board_c/out/libboard_c.a
(cd crates/board_c && "$rt" lib) || fail "rt lib gave no proved library"
cp "$proved" "$work/proved.a"

# Links what a folder of the kit holds, but for some names.
link_all_but() { # NAMES FOLDER
    mkdir -p "$work/kit/$2"
    for thing in "$kit/$2"/*; do
        case " $1 " in
        *" ${thing##*/} "*) ;;
        *) ln -s "$thing" "$work/kit/$2/" ;;
        esac
    done
}
link_all_but 'bin toolchain' .
link_all_but 'rt rtlib.py' bin
link_all_but bin toolchain
link_all_but clang toolchain/bin
# rt takes the folder that its own file stands in for the kit's, behind any link.
cp "$kit/bin/rt" "$kit/bin/rtlib.py" "$work/kit/bin/"

: >"$work/modules"
cat >"$work/kit/toolchain/bin/clang" <<END
#!/bin/sh
for word; do
    case \$word in *.bc)
        echo "\$word" >>'$work/modules'
        cp "\$word" '$work/module.bc'
        printf '%s\n' "\$@" >'$work/words'
        ;;
    esac
done
exec '$clang' "\$@"
END
chmod +x "$work/kit/toolchain/bin/clang"

if ! (cd crates/board_c && "$work/kit/bin/rt" lib) >"$work/said" 2>&1; then
    cat "$work/said" >&2
    fail "rt lib gave no proved library the second time"
fi
[ "$(wc -l <"$work/modules")" -eq 1 ] || fail "rt lib did not compile one module"

# Compiles with the kit's words, and further ones behind them.
compile() { # MODULE OBJECT WORDS
    module=$1 object=$2
    shift 2
    further=$#
    while IFS= read -r word; do
        case $word in
        *.bc) word=$module ;;
        *.o) word=$object ;;
        esac
        set -- "$@" "$word"
    done <"$work/words"
    while [ "$further" -gt 0 ]; do
        set -- "$@" "$1"
        shift
        further=$((further - 1))
    done
    "$clang" "$@"
}

# ---- Whether the module fits IA-32 ----

"$clang" --no-default-config -S -emit-llvm -Xclang -disable-llvm-passes -x ir "$work/module.bc" -o "$work/text.ll"

# A function that returns a slice loads it whole, as a pointer and a number. Here the two are loaded apart,
# each from where the module puts it: on IA-32 the number of such a pair would stand at byte 4.
awk '
    /^  %[^ ]+ = load [{] ptr, i64 [}], ptr %[^ ]+ align 8$/ {
        print "  " $1 ".start = load ptr, ptr " $9 " align 8"
        print "  " $1 ".at = getelementptr i8, ptr " $9 " i64 8"
        print "  " $1 ".length = load i64, ptr " $1 ".at, align 8"
        print "  " $1 ".half = insertvalue { ptr, i64 } poison, ptr " $1 ".start, 0"
        print "  " $1 " = insertvalue { ptr, i64 } " $1 ".half, i64 " $1 ".length, 1"
        next
    }
    { print }
' "$work/text.ll" >"$work/apart.ll"

"$kit/toolchain/bin/llvm-ar" p "$work/proved.a" >"$work/proved.o"
compile "$work/apart.ll" "$work/apart.o" -Wno-override-module
cmp -s "$work/apart.o" "$work/proved.o" || fail "the module gives other code for x86-64 than the archive has"

# A pointer has 4 bytes here, and the module keeps 8 for it. That makes no difference as long as offsets
# are counted in bytes and a pointer is loaded and stored as one: alone in a slot of its own, or as the
# first half of a slice, which is 16 bytes with the length at byte 8. A struct is loaded or stored whole
# only if each member has at most 4 bytes, so that it lies alike. Floating point would round otherwise.
trouble=$(awk '
    function refuse(why) { print why ":" line; exit }
    function is(name, what) { return (name in slot) && slot[name] == what }
    function used(type, address) {
        if (type == "ptr" && !(address in slot)) refuse("a pointer outside a slice")
        if (type == "ptr") holds[address] = 1
        else if (is(address, "pointer")) refuse("a pointer taken for a number")
        else parts[address] = 1
    }
    function slice_after(word) { gsub(word " [{] ptr +i64 [}]", word " slice") }
    # The name of a function or a global is no type, whatever it says in its quotes. Any other name stands.
    {
        line = $0
        n = split($0, part, "\"")
        $0 = part[1]
        for (i = 2; i <= n; i++) $0 = $0 (i % 2 ? part[i] : ($0 ~ /@$/ ? "name" : "\"" part[i] "\""))
    }
    { gsub(/[,()]/, " "); gsub(/[{]( +i(8|16|32))+ +[}]/, "numbers") }
    { slice_after("ret"); slice_after("extractvalue"); slice_after("insertvalue") }
    { gsub(/[{] ptr +i64 [}] @/, "slice @") }
    /ptrtoint|inttoptr|addrspacecast/ { refuse("a pointer becomes a number") }
    / (half|bfloat|float|double|fp128|x86_fp80) / { refuse("floating point") }
    / = (load|alloca) .*[{]|^ *store .*[{]/ { refuse("a struct in memory") }
    /^@.* ptr|x ptr[]>]|[{].* ptr/ { refuse("a pointer inside another type") }
    /^define/ { split("", slot); split("", holds); split("", parts) }
    /alloca ptr/ { slot[$1] = "pointer"; next }
    /alloca \[16 x i8\]  align 8/ { slot[$1] = "slice"; next }
    $3 == "load" { used($4, $6); next }
    $1 == "store" { used($2, $5); if (is($3, "pointer")) refuse("a pointer to a pointer"); next }
    $3 == "getelementptr" && !/ (inbounds )?(nuw )?i8  ptr/ { refuse("an offset not in bytes") }
    $3 == "getelementptr" && $NF != 8 { parts[$(NF - 2)] = 1 }
    /@llvm\.mem/ && !/ i64 16 / { for (i = 1; i <= NF; i++) parts[$i] = 1 }
    { for (i = 1; i <= NF; i++) if (is($i, "pointer")) refuse("a pointer to a pointer") }
    /^}/ { for (name in holds) if (name in parts) refuse("a slice taken apart, " name) }
' "$work/apart.ll")
[ -z "$trouble" ] || fail "the module does not fit IA-32: $trouble"

# ---- The code: the kit's words, another target ----

# Each function names the processor that it was made for, and no option overrides that. The flag says that
# a caller's stack is aligned to 4 bytes and no more.
sed 's/ "\(target-cpu\|tune-cpu\|target-features\)"="[^"]*"//g' "$work/apart.ll" >"$work/module.ll"
cat >>"$work/module.ll" <<'END'
!llvm.module.flags = !{!1000000}
!1000000 = !{i32 1, !"override-stack-alignment", i32 4}
END

compile "$work/module.ll" "$work/board.o" --target=i386-unknown-linux-gnu "-march=$march" "$pic" \
    -Wno-override-module -fstack-usage

# The module moves memory by memmove. Where two places are known to be apart clang calls memcpy for it; memmove does the same.
objcopy --redefine-sym memcpy=memmove "$work/board.o"

objdump -d --no-show-raw-insn "$work/board.o" >"$work/code"
grep -q 'file format elf32-i386' "$work/code" || fail "the code is not for IA-32"
trouble=$(awk -F '\t' -v known="^($known)$" '
    NF > 1 {
        split($2, words, " ")
        for (i = 1; words[i] ~ /^(rep|repz|repnz|data16|cs)$/; ) i++
        if (words[i] !~ known || /%(st|[xyz]?mm)/) { print $2; exit }
    }' "$work/code")
[ -z "$trouble" ] || fail "an instruction beyond the $march: $trouble"
nm -u "$work/board.o" >"$work/undefined"
trouble=$(awk -v needed="^($needed)$" '$2 !~ needed { printf " %s", $2 }' "$work/undefined")
[ -z "$trouble" ] || fail "the code needs more than memmove and memset:$trouble"

# ---- The archive ----

mkdir -p "${archive%/*}"
"$kit/toolchain/bin/llvm-ar" rcs "$work/libboard.a" "$work/board.o"
cp "$work/libboard.a" "$archive.new"
mv "$archive.new" "$archive"
code=$(nm -S -t d "$work/board.o" | awk '$3 ~ /^[tT]$/ { bytes += $2 } END { print bytes }')
frame=$(awk -F '\t' '$2 > most { most = $2 } END { print most }' "$work/board.su")
echo "$archive: $march, $code bytes of code, largest stack frame $frame bytes"
