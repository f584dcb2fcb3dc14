# For the tests in sh: counted steps in a folder $out of their own. Sourced after `part` was set, which goes before each line.
out=${TMPDIR:-/tmp}/hadulmir-$part.$$
mkdir "$out" || exit 2
trap 'rm -rf "$out"' EXIT
trap 'exit 1' HUP INT TERM
passed=0
failed=0

# The functions of the archive: those that the header declares.
functions=$(sed -n 's/^int32_t \(hadulmir_[a-z_]*\)(.*/\1/p' include/hadulmir.h)

# step NAME COMMAND...: runs the command and counts; what it said is shown if it failed
step() {
    name=$1
    shift
    if "$@" >"$out/log" 2>&1; then
        passed=$((passed + 1))
        echo "$part: ok      $name"
    else
        failed=$((failed + 1))
        echo "$part: FAILED  $name"
        tail -n 30 "$out/log" | sed 's/^/    /'
    fi
}

# missed WHAT: a failure without a command
missed() {
    failed=$((failed + 1))
    echo "$part: FAILED  $1"
}

# closing: the last line, and the status
closing() {
    echo "$part: $passed passed, $failed failed"
    [ "$failed" -eq 0 ]
}
