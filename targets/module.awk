# Reads the LLVM module of the proved crate as text, and prints it without what belongs to x86-64: the data layout, the triple, the processor
# and the stack probes, with their size. The results of the exported functions get `signext`: the C convention of rv64gc lets a caller rely on it. Parameters of
# internal functions lose `zeroext`: their callers do not promise it, and without it the function takes nothing for granted. The load of a pair
# becomes two loads, at the bytes where x86-64 has the two values. `ptrtoaddr`, whose result is as wide as an address, becomes `ptrtoint`.
#
# Every line has to be of a form that was looked at and means the same on a machine with 32-bit or 64-bit pointers, the least significant
# byte first: whole numbers of at most 64 bits, memory by byte offsets, direct calls, constant bytes, and pairs of numbers and pointers as the results of
# functions. Where a machine has the second of a pair in memory does not matter: no pair is stored, and no load of one is left. A pointer is compared
# with null alone, which is 0 on each of these machines, and in `copy_bits` of the kit two are, as numbers, where the answer is the same (addresses).
# A line of another form, or a mark that is missing, ends the run with 1 and says which, so that a new kit or new code cannot pass unseen.

function stop(why) {
    printf "targets/module.awk: line %d of the module: %s: %s\n", NR, why, $0 > "/dev/stderr"
    stopped = 1
    exit 1
}

# A line of an instruction without names, numbers and what says no more than a proved fact: `%r7 = add nuw i64 %r6, 47` is `add T V, V`.
function form(line) {
    sub(/^ +/, "", line)
    sub(/^%[A-Za-z0-9._]+ = /, "", line)
    gsub(/, ![a-z]+ ![0-9]+/, "", line)
    gsub(/@"[^"]*"/, "@F", line)
    gsub(/%[A-Za-z0-9._]+/, "V", line)
    gsub(/\[[0-9]+ x i8\]/, "A", line)
    gsub(/\{ (i8|i16|i32|i64|ptr), (i8|i16|i32|i64|ptr) \}/, "P", line)
    sub(/^store ptr @static\.[0-9]+,/, "store ptr @C,", line)
    gsub(/ (noundef|inbounds|nuw|nsw)/, "", line)
    sub(/^getelementptr i8, ptr V, i64 /, "getelementptr byte, ptr V, ", line)
    gsub(/i(1|8|16|32|64)/, "T", line)
    gsub(/ (-?[0-9]+|true|false)/, " V", line)
    return line
}

# Whether an instruction is one of those that were looked at. T is a whole number of 1 to 64 bits, V a name or a number, A an array of bytes, P a pair,
# @C the address of constant bytes.
function known(f) {
    return f ~ /^load (T|ptr), ptr V, align V$/ || f ~ /^store (T|ptr) V, ptr V, align V$/ || f ~ /^alloca (T|A|ptr), align V$/ \
        || f ~ /^getelementptr byte, ptr V, V$/ || f ~ /^(add|sub|mul|udiv|urem|and|or|xor|shl|lshr) T V, V$/ || f ~ /^(zext|trunc) T V to T$/ \
        || f ~ /^icmp (eq|ne|ult|ule|ugt|uge) T V, V$/ || f ~ /^br label V$/ || f ~ /^br T V, label V, label V$/ || f ~ /^ret (void|(T|ptr|P) V)$/ \
        || f ~ /^switch T V, label V \[$/ || f ~ /^T V, label V$/ || f == "]" || f == "unreachable" \
        || f ~ /^call (void|T|P) @F\(((T|ptr) V(, (T|ptr) V)*)?\)$/ || f == "extractvalue P V, V" \
        || f == "icmp eq ptr V, null" || f == "store ptr @C, ptr V, align V" || f == "call void @llvm.memmove.p0.p0.T(ptr V, ptr V, T V, T V)" \
        || f == "call void @llvm.memset.p0.T(ptr V, T V, T V, T V)" || f == "call T @llvm.cttz.T(T V, T V)"
}

# --- the marks of x86-64, which stand once for each kind of function: plain, never inlined and always inlined

/^target datalayout = "e-m:e-/ { layouts++; next }
/^target triple = "x86_64-unknown-linux-gnu"$/ { triples++; next }
/^attributes #[0-9]+ = [{] ((noinline|alwaysinline) )?nounwind "/ {
    probes += sub(/ "probe-stack"="inline-asm"/, "")
    sizes += sub(/ "stack-probe-size"="3072"/, "")
    processors += sub(/ "target-cpu"="x86-64"/, "")
    if (!/^attributes #[0-9]+ = [{] ((noinline|alwaysinline) )?nounwind [}]$/) stop("an attribute that was not looked at")
    kinds++
    delete used[$2]
    print
    next
}
/^attributes #[0-9]+ = [{] nocallback nofree (nosync )?nounwind (speculatable )?willreturn memory\((argmem: write|argmem: readwrite|none)\) [}]$/ { print; next }

# --- functions

/^define / { copies = taken = 0 }
/^define noundef i32 @hadulmir_[a-z_]+\(((ptr|i8|i16|i32|i64) noundef %a[0-9]+(, )?)+\) #[0-9]+ [{]$/ {
    exports++
    used[$(NF - 1)] = NR
    sub(/^define noundef i32/, "define noundef signext i32")
    print
    next
}
/^define internal (void|noundef (zeroext )?(i1|i8|i16|i32|i64)|(noundef )?[{] (i8|i16|i32|i64|ptr), (i8|i16|i32|i64|ptr) [}]) @"[^"]*"\(((ptr|i1|i8|i16|i32|i64)( noundef( zeroext)?)? %a[0-9]+(, )?)*\) #[0-9]+ [{]$/ {
    used[$(NF - 1)] = NR
    if (/ @"core::ptr::copy_drop::copy_bits::<[^"]*"\(/) copies = 1
    gsub(/ noundef zeroext %/, " noundef %")
    print
    next
}
/^declare void @llvm\.(memmove\.p0\.p0|memset\.p0)\.i64\(/ || /^declare i64 @llvm\.cttz\.i64\(/ { print; next }

# --- instructions

# The load of a pair. On x86-64 the first value is at byte 0 and the second at the first multiple of its own size that is free. All sizes are powers of
# two, so that this is the larger of the two sizes.
function split_load(name, first, second, from, align,   byte, pair) {
    byte = size[first] > size[second] ? size[first] : size[second]
    pair = "{ " first ", " second " }"
    printf "  %s.first = load %s, ptr %s, align %d\n", name, first, from, align
    printf "  %s.place = getelementptr i8, ptr %s, i64 %d\n", name, from, byte
    printf "  %s.second = load %s, ptr %s.place, align %d\n", name, second, name, align + 0 < byte ? align : byte
    printf "  %s.half = insertvalue %s undef, %s %s.first, 0\n", name, pair, first, name
    printf "  %s = insertvalue %s %s.half, %s %s.second, 1\n", name, pair, name, second, name
}

# `copy_bits` copies n bytes from address s to address t. In its first block, in four lines that follow one another, it asks whether t is one of the n
# addresses from s on: t and s as numbers, d = t - s modulo 2^64, and whether d is below n. `ptrtoint` extends an address of 32 bits by zeros. If t is
# not before s, d is the distance. If it is, d is 2^64 - s + t, which is n or more, since the n bytes end within memory: s + n is at most 2^64, or 2^32.
# So the answer is right on each machine. No other line of the function has t, s or d in it as a number.
function addresses() {
    if (taken == 2 && /^  %[A-Za-z0-9._]+ = sub i64 / && NR == taken_at + 1 && $5 == taken_as[1] "," && $6 == taken_as[2]) { taken_as[++taken] = $1; return }
    if (taken == 3 && /^  %[A-Za-z0-9._]+ = icmp ult i64 / && NR == taken_at + 2 && $6 == taken_as[3] "," && !mentions($7)) { taken++; return }
    if (taken < 4 || mentions($0)) stop("an address as a number, otherwise than in copy_bits")
}

# Whether a text names one of these three numbers.
function mentions(text) {
    gsub(/[(),]/, " ", text)
    text = " " text " "
    return index(text, " " taken_as[1] " ") || index(text, " " taken_as[2] " ") || index(text, " " taken_as[3] " ")
}

BEGIN { size["i8"] = 1; size["i16"] = 2; size["i32"] = 4; size["i64"] = size["ptr"] = 8 }

/^  %[A-Za-z0-9._]+ = ptrtoaddr ptr %[A-Za-z0-9._]+ to i64$/ {
    if (!copies || !first_block || taken > 1 || (taken && NR != taken_at + 1)) stop("an address as a number, otherwise than in copy_bits")
    taken_as[++taken] = $1
    taken_at = NR
    sub(/ptrtoaddr/, "ptrtoint")
    print
    next
}
taken && /^  / { addresses() }
/^  %[A-Za-z0-9._]+ = load \{ (i8|i16|i32|i64|ptr), (i8|i16|i32|i64|ptr) \}, ptr %[A-Za-z0-9._]+, align (1|2|4|8)$/ {
    split_load($1, substr($5, 1, length($5) - 1), $6, substr($9, 1, length($9) - 1), $11)
    next
}
/^  / {
    if (!known(form($0))) stop("an instruction that was not looked at, " form($0))
    print
    next
}
/^[a-z0-9.]+:( |$)/ { first_block = $1 == "start:" }
/^@static\.[0-9]+ = private unnamed_addr constant \[[0-9]+ x i8\] (c"[^"]*"|zeroinitializer), align [0-9]+$/ { print; next }
/^[a-z0-9.]+:( |$)/ || /^}$/ || /^$/ || /^;/ || /^source_filename = / || /^![0-9]+ = ![{]/ || /^!llvm\.ident = / { print; next }
{ stop("a form that was not looked at") }

END {
    if (stopped) exit 1
    for (group in used) {
        printf "targets/module.awk: line %d of the module: a function of the kind %s, which was not looked at\n", used[group], group > "/dev/stderr"
        exit 1
    }
    if (layouts != 1 || triples != 1 || kinds < 1 || probes != kinds || sizes != kinds || processors != kinds || exports != 11) {
        printf "targets/module.awk: the module has %d data layouts and %d triples, where 1 is expected, %d kinds of functions, with %d stack probes, %d sizes of these and %d processors of x86-64, and %d exported functions of 11\n", \
            layouts, triples, kinds, probes, sizes, processors, exports > "/dev/stderr"
        exit 1
    }
}
