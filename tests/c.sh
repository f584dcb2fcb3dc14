#!/bin/sh
# The C side, from a given archive: header, example, tests, sizes and stack.
#     tests/c.sh PATH/libhadulmir.a
# Ends with 'c: N passed, M failed', and with 0 if M is 0.
set -u

if [ $# -ne 1 ] || [ ! -f "$1" ]; then
    echo "usage: tests/c.sh PATH/libhadulmir.a" >&2
    exit 2
fi
archive=$(cd "$(dirname "$1")" && pwd)/$(basename "$1")
cd "$(dirname "$0")/.." || exit 2

part=c
. tests/steps.sh

warn="-Wall -Wextra -Werror -pedantic -Iinclude"
c99="gcc $warn -std=c99"

# passes WORD COMMAND...: the command ends with 0, and its last line is 'WORD: N passed, 0 failed'
passes() {
    word=$1
    shift
    "$@" >"$out/said" 2>&1
    status=$?
    cat "$out/said"
    [ "$status" -eq 0 ] && tail -n 1 "$out/said" | grep -q "^$word: [1-9][0-9]* passed, 0 failed\$"
}

# fails WORD COMMAND...: the command ran to its last line, which counts a failure
fails() {
    word=$1
    shift
    "$@" >"$out/said" 2>&1
    status=$?
    cat "$out/said"
    [ "$status" -ne 0 ] && tail -n 1 "$out/said" | grep -q "^$word: [0-9]* passed, [1-9][0-9]* failed\$"
}

# --- the archive

exports() {
    nm --defined-only "$archive" | awk '$2 == "T" { print $3 }' | LC_ALL=C sort >"$out/exported"
    printf '%s\n' $functions | LC_ALL=C sort | diff - "$out/exported"
}

needs_little() {
    nm -u "$archive" | awk '$1 == "U" && $2 != "memcpy" && $2 != "memset" { print; bad = 1 } END { exit bad }'
}

no_data() {
    size -t "$archive" | tee "$out/size" | tail -n 1 | awk '{ print; exit !($2 == 0 && $3 == 0) }'
}

step "the archive has the functions of the header and no other" exports
step "it needs nothing but memcpy and memset" needs_little
step "it has no writable data" no_data

# --- the header

step "header alone, C99" $c99 -Wconversion -fsyntax-only -x c include/hadulmir.h
# refuses WHAT VALUE: the header does not compile where a name of <limits.h> has another value, and says where it stopped
refuses() {
    printf '#include <limits.h>\n#undef %s\n#define %s %s\n#include "hadulmir.h"\n' "$1" "$1" "$2" >"$out/target.c"
    ! $c99 -fsyntax-only "$out/target.c" && grep -q 'error: .*hadulmir_fits_the_target' "$out/log"
}
step "header refuses a target with bytes of 16 bits" refuses CHAR_BIT 16
for standard in c++11 c++17; do
    step "header.cpp, $standard" g++ $warn -std=$standard -O2 tests/c/header.cpp "$archive" -o "$out/header"
    step "header.cpp runs, $standard" passes header "$out/header"
done

# --- the example

step "host.c builds" $c99 -O2 examples/host.c "$archive" -o "$out/host"
host() { "$out/host" | diff examples/host.out -; }
step "host.c writes examples/host.out" host
short() { [ "$(wc -l <examples/host.c)" -lt 200 ]; }
step "host.c has under 200 lines" short

# --- the tests: plain, with the sanitizers, under valgrind

step "face.c builds" $c99 -O2 tests/c/face.c "$archive" -o "$out/face"
step "face.c passes" passes face "$out/face"
face=$(tail -n 1 "$out/said")
step "face.c builds with sanitizers" $c99 -O1 -g -fsanitize=address,undefined -fno-sanitize-recover=all tests/c/face.c "$archive" -o "$out/face-san"
step "face.c passes with sanitizers" passes face "$out/face-san"
step "face.c builds with exact blocks" $c99 -O2 -g -DGUARD=0 tests/c/face.c "$archive" -o "$out/face-exact"
memory="valgrind --quiet --error-exitcode=1 --leak-check=full --show-leak-kinds=all --errors-for-leak-kinds=all"
if command -v valgrind >/dev/null; then
    step "face.c passes under valgrind" passes face $memory "$out/face-exact"
    step "host.c is clean under valgrind" $memory "$out/host"
else
    missed "valgrind is missing"
fi

# --- the tests see faults

wrap=$(printf -- ' -Wl,--wrap=%s' $functions)
faulty() { $c99 -O2 -DFAULT="$1" "$out/face-$2.o" tests/c/faults.c $wrap "$archive" -o "$out/faulty"; }
for guard in 0 64; do
    step "face.c compiles with guards of $guard bytes" $c99 -O2 -g -DGUARD=$guard -c tests/c/face.c -o "$out/face-$guard.o"
done
unharmed() { faulty 0 64 && passes face "$out/faulty"; }
step "without a fault, through the wrapper, face.c passes" unharmed
found() { faulty "$1" 64 && fails face "$out/faulty"; }
for fault in $(seq 43); do
    step "fault $fault is found" found "$fault"
done
found_by_valgrind() {
    faulty "$1" 0 || return 1
    $memory "$out/faulty" >"$out/said" 2>&1
    [ $? -eq 1 ] && grep -q 'Invalid read' "$out/said"
}
if command -v valgrind >/dev/null; then
    step "fault 44, a byte read behind the image, is found by valgrind" found_by_valgrind 44
    step "fault 45, a byte read behind the line, is found by valgrind" found_by_valgrind 45
fi

# --- size and stack

echo "c: code size, bytes"
nm -S --defined-only --size-sort "$archive" | awk '
    function number(hex,   n, i) { for (i = 1; i <= length(hex); i++) n = 16 * n + index("0123456789abcdef", substr(hex, i, 1)) - 1; return n }
    NF >= 4 { printf "    %-26s %6d\n", $4, number($2) }'
sed -n '$s/^ *\([0-9]*\).*/    text in all                \1/p' "$out/size"

step "host.c builds with stack usage" $c99 -O2 -fstack-usage -c examples/host.c -o "$out/host.o"
echo "c: stack of the example's own functions (gcc -fstack-usage), bytes"
awk -F '\t' '{ n = split($1, part, ":"); printf "    %-26s %6d\n", part[n], $2 }' "$out/host.su"
step "stack.c builds" $c99 -O2 tests/c/stack.c "$archive" -o "$out/stack"
step "no call takes more stack than the header says" "$out/stack"
echo "c: stack of the archive's functions, as painted"
sed 's/^/    /' "$out/log" | tee "$out/painted"
# said WHAT: the figure at the end of the row of docs/HOST.md that has WHAT; a stack may differ by 512 bytes, since the C library's part of it may
said() { grep -F "$1" docs/HOST.md | sed -n 's/.* \([0-9,]*\) |$/\1/p' | tr -d , | tail -n 1; }
figures() {
    while read -r call bytes _; do
        case $call in
        hadulmir_*)
            off=$(said "\`$call\`")
            off=$((${off:--100000} - bytes)) && [ "${off#-}" -le 512 ] || { echo "$call takes $bytes"; return 1; }
            ;;
        esac
    done <"$out/painted"
    code=$(sed -n '$s/^ *\([0-9]*\).*/\1/p' "$out/size")
    [ "$(said '| code, all')" = "$code" ] || { echo "the code takes $code"; return 1; }
}
step "docs/HOST.md has these figures" figures

echo "c: $face"
closing
