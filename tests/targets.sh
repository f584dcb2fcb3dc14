#!/bin/sh
# The archives for other targets: builds them all and looks at each, from the archive that `make archive` wrote.
#     tests/targets.sh PATH/libhadulmir.a
# Nothing is run here; tests/targets/run does that. Ends with 'targets: N passed, M failed', and with 0 if M is 0.
set -u

if [ $# -ne 1 ] || [ ! -f "$1" ]; then
    echo "usage: tests/targets.sh PATH/libhadulmir.a" >&2
    exit 2
fi
plain=$(cd "$(dirname "$1")" && pwd)/$(basename "$1")
cd "$(dirname "$0")/.." || exit 2

part=targets
. tests/steps.sh

built=build/targets

# --- building

cp "$plain" "$out/plain.a" || exit 2
step "the archives build" targets/build
step "x86_64 is the archive that make archive writes" cmp "$out/plain.a" $built/x86_64/libhadulmir.a
names=$(sed 's/#.*//' targets/list | awk 'NF { print $1 }')
again() {
    targets/build -r -d "$out/again" || return 1
    for target in $names; do
        [ "$target" = x86_64 ] || cmp $built/$target/libhadulmir.a "$out/again/$target/libhadulmir.a" || return 1
    done
}
step "built again, each archive has the same bytes" again

# --- a module that is not as expected is refused

# change SCRIPT: the module as the sed script changes it, which it does change
change() {
    sed "$1" $built/x86_64.ll >"$out/changed.ll"
    if cmp -s "$out/changed.ll" $built/x86_64.ll; then echo "nothing was changed"; return 1; fi
}

# refused SCRIPT: module.awk refuses the changed module, and says why
refused() {
    change "$1" || return 1
    if awk -f targets/module.awk "$out/changed.ll" >/dev/null 2>"$out/why"; then echo "it passed"; return 1; fi
    grep '^targets/module\.awk: ' "$out/why"
}
damaged() { step "a module is refused: $1" refused "$2"; }
damaged "no data layout" '/^target datalayout/d'
damaged "another data layout" '/^target datalayout/s/"e-/"E-/'
damaged "no triple" '/^target triple/d'
damaged "no stack probes" 's/ "probe-stack"="inline-asm"//'
damaged "another size of stack probes" 's/ "stack-probe-size"="3072"/ "stack-probe-size"="4096"/'
damaged "no processor" 's/ "target-cpu"="x86-64"//'
damaged "another attribute" 's/ "target-cpu"="x86-64"/& "frame-pointer"="all"/'
damaged "another word on inlining" 's/^\(attributes #0 = {\) nounwind/\1 inlinehint nounwind/'
damaged "a kind of function without stack probes" '/^attributes #0 /s/ "probe-stack"="inline-asm"//'
damaged "a function of another kind" 's/^\(define internal .*\) #0 {$/\1 #2 {/'
damaged "a function less" 's/^define noundef i32 @hadulmir_ask/define internal noundef i32 @"hadulmir_ask"/'
damaged "a pointer as a number" 's/ = icmp .*/ = ptrtoint ptr %r0 to i64/'
damaged "a floating-point number" 's/ = add i64 .*/ = fadd double %r0, %r0/'
damaged "a number of 128 bits" 's/ = add i64 / = add i128 /'
damaged "steps wider than a byte" 's/getelementptr i8, /getelementptr i64, /'
damaged "another intrinsic" 's/@llvm\.cttz\.i64/@llvm.ctlz.i64/'
damaged "a function of elsewhere" 's/^declare i64 @llvm\.cttz\.i64/declare i64 @helper/'
damaged "a call through a pointer" 's/call void @"[^"]*"/call void %r0/'
damaged "three values at once" 's/{ i64, i64 }/{ i64, i64, i64 }/g'
damaged "a pair with a number of 128 bits" 's/{ i64, i64 }/{ i64, i128 }/g'
damaged "a pair with a floating-point number" 's/{ i64, i64 }/{ double, i64 }/g'
damaged "a packed pair" 's/{ i64, i64 }/<{ i64, i64 }>/g'
damaged "a store of a pair" 's/  store i64 %/  store { i64, i64 } %/'
damaged "a store of a pair with a pointer" 's/  store ptr %/  store { i8, ptr } %/'
damaged "memory for a pair" 's/ = alloca i64,/ = alloca { i64, i64 },/'
damaged "the load of a pair with a promise" 's/ = load { i64, i64 }, .*/&, !noundef !1/'
damaged "a pair as a parameter" 's/^\(define internal .*\)(ptr noundef %a0/\1({ i64, i64 } noundef %a0/'
damaged "an address as a number, in another function" 's/ = icmp .*/ = ptrtoaddr ptr %r0 to i64/'
damaged "one address as a number" 's/ = ptrtoaddr ptr %a0 to i64/ = add i64 %a2, 0/'
damaged "addresses added" '/ = ptrtoaddr /,/^}/s/ = sub i64 / = add i64 /'
damaged "addresses subtracted the other way round" '/ = ptrtoaddr /,/^}/s/ = sub i64 \(%r[0-9]*\), \(%r[0-9]*\)/ = sub i64 \2, \1/'
damaged "addresses compared in another way" '/ = ptrtoaddr /,/^}/s/ = icmp ult / = icmp ugt /'
damaged "the distance of two addresses stored" '/ = ptrtoaddr /,/^}/s/ = icmp ult i64 \(%r[0-9]*\), .*/&\n  store i64 \1, ptr %a0, align 8/'
damaged "pointers compared" 's/ = icmp eq ptr %a0, null/ = icmp ult ptr %a0, %a0/'
damaged "a store into constant bytes" 's/  store ptr @static\.0, ptr %r[0-9]*,/  store ptr %a0, ptr @static.0,/'
damaged "a volatile store" 's/  store i8/  store volatile i8/'
damaged "a variable" 's/^source_filename = .*/@state = internal global i64 0/'
damaged "assembly" 's/^source_filename = .*/module asm "nop"/'

# taken SCRIPT: it takes the changed module
taken() { change "$1" && awk -f targets/module.awk "$out/changed.ll" >/dev/null; }
step "a module is taken: functions that are never inlined" taken 's/^\(attributes #0 = {\) nounwind/\1 noinline nounwind/'
step "a module is taken: functions that are always inlined" taken 's/^\(attributes #0 = {\) nounwind/\1 alwaysinline nounwind/'

# split FIRST SECOND ALIGNMENT BYTE ITS-ALIGNMENT: a load of such a pair becomes two, the second at this byte
split() {
    awk -v load="  %pair = load { $1, $2 }, ptr %where, align $3" '{ print } $0 == "start:" && !loads++ { print load }' $built/x86_64.ll >"$out/changed.ll"
    awk -f targets/module.awk "$out/changed.ll" | grep '^  %pair' >"$out/split"
    diff - "$out/split" <<END
  %pair.first = load $1, ptr %where, align $3
  %pair.place = getelementptr i8, ptr %where, i64 $4
  %pair.second = load $2, ptr %pair.place, align $5
  %pair.half = insertvalue { $1, $2 } undef, $1 %pair.first, 0
  %pair = insertvalue { $1, $2 } %pair.half, $2 %pair.second, 1
END
}
step "the load of a pair is split: i8 and ptr, at byte 8" split i8 ptr 8 8 8
step "the load of a pair is split: ptr and i64, at byte 8" split ptr i64 8 8 8
step "the load of a pair is split: i64 and i8, at byte 8" split i64 i8 8 8 8
step "the load of a pair is split: i8 and i32, at byte 4" split i8 i32 4 4 4
step "the load of a pair is split: i8 and i16 at any address, at byte 2" split i8 i16 1 2 1
step "the load of a pair is split: i8 and i8 at a multiple of 8, at byte 1" split i8 i8 8 1 1

# no_pair_loaded: no load of a pair is left, and there are as many second loads as the module has loads of pairs
no_pair_loaded() {
    ! grep ' load {' $built/portable.ll && [ "$(grep -c ' = load { ' $built/x86_64.ll)" -eq "$(grep -c '^  %[a-z0-9]*\.second = load ' $built/portable.ll)" ]
}
step "no load of a pair is left" no_pair_loaded

# --- each archive, by what readelf says of it, which reads the files of every machine

# symbols TARGET: the global symbols, one a line: 'defined NAME' or 'needed NAME'
symbols() {
    readelf -sW "$built/$1/libhadulmir.a" | awk '$5 == "GLOBAL" || $5 == "WEAK" { print ($7 == "UND" ? "needed" : "defined"), $8 }' | LC_ALL=C sort
}

# bytes TARGET: what is loaded and may not be written (code and read-only tables), and what may be written
bytes() {
    readelf -SW "$built/$1/libhadulmir.a" | awk '
        function number(hex,   n, i) { for (i = 1; i <= length(hex); i++) n = 16 * n + index("0123456789abcdef", substr(hex, i, 1)) - 1; return n }
        sub(/^ *\[ *[0-9]+\] /, "") && $7 ~ /A/ { if ($7 ~ /W/) data += number($5); else code += number($5) }
        END { print code + 0, data + 0 }'
}

# table: the rows of the table of targets in docs/HOST.md, without its head
table() { sed -n '/^## Other targets$/,/^## /{ /^| Target |/,/^$/p; }' docs/HOST.md | sed '1,2d;$d'; }

# row TARGET COLUMN: what the table has there
row() { table | awk -F ' *[|] *' -v target="$1" -v column="$2" '$2 == target { print $(column + 1) }'; }

exports() {
    symbols "$1" | sed -n 's/^defined //p' >"$out/exported"
    printf '%s\n' $functions | LC_ALL=C sort | diff - "$out/exported"
}

needs() {
    symbols "$1" | sed -n 's/^needed //p' | paste -s -d , | sed 's/,/, /g' >"$out/needed"
    row "$1" 4 | tr -d '`' | diff - "$out/needed"
}

no_data() {
    bytes "$1" | { read -r code data; echo "$data bytes of data"; [ "$data" -eq 0 ] && [ "$code" -gt 0 ]; }
}

code_size() {
    bytes "$1" | { read -r code data; echo "the code takes $code, docs/HOST.md says $(row "$1" 3)"; [ "$(row "$1" 3 | tr -d ,)" = "$code" ]; }
}

for target in $names; do
    step "$target has the functions of the header and no other" exports "$target"
    step "$target needs what docs/HOST.md says" needs "$target"
    step "$target has no data" no_data "$target"
    step "$target has the code size of docs/HOST.md" code_size "$target"
done

# another_core: words for a Cortex-M0+ give an archive that needs, besides what every one may need, the routines that docs/HOST.md names
another_core() {
    targets/build -r -w '--target=thumbv6m-none-eabi -mcpu=cortex-m0plus -mno-unaligned-access' -d "$out/other" cortex-m4 || return 1
    (built=$out/other && symbols cortex-m4) | sed -n 's/^needed //p' | grep -v -x -e memcpy -e memmove -e memset >"$out/needed"
    grep -o '`__aeabi_[a-z]*`' docs/HOST.md | tr -d '`' | LC_ALL=C sort | diff - "$out/needed"
}
step "a Cortex-M0+ needs the routines of docs/HOST.md" another_core

rows() {
    table | awk -F ' *[|] *' '{ print $2 }' >"$out/rows"
    printf '%s\n' $names | diff - "$out/rows"
}
step "docs/HOST.md has a row for each target, and no other" rows

closing
