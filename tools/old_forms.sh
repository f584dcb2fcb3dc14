#!/usr/bin/env bash
# How many places of src/ match the patterns of an older form: the counts of docs/DESIGN-PASS.md, a line each. At the top of a checkout:
#
#     tools/old_forms.sh            counts
#     tools/old_forms.sh -l         the places too
set -u
list=${1:-}
here=$(cd "$(dirname "$0")" && pwd)

# count NAME PATTERN
count() {
    echo "$1: $(grep -nE "$2" crates/*/src/*.rt | wc -l)"
    [ "$list" != -l ] || grep -nE "$2" crates/*/src/*.rt
}

count '1, enums of its own' '^(pub(\(crate\))? )?enum '
count '1, flags' '^    (pub(\(crate\))? )?[a-z_]+: bool,|more: bool'
count '1, refusals by number' 'Refused\([0-9a-z]+\)|refused\(s, [0-9]+\)|negative\([0-9]+\)'
count '1, codes and kinds by number' 'Code\([0-9a-z]+\)|^const (ENDED|SUPERSEDED|STARTED)|kind: u(8|16)'
count '1, zero for none' '0 for none|no kind|^        return 0;$|^            return 0;$'
echo "2, functions of one shape: $("$here/same_shape.py" | awk '{ n += $1 } END { print n + 0 " in " NR }')"
[ "$list" != -l ] || "$here/same_shape.py"
count '3, while and loop' '^\s*(while|loop)\b'
count '3, for' '^\s*for\b'
count '4, equality, order, copies, conversions by name' 'fn (equals|is_below|later|earlier|is_better|of|number|count|mark|copy|slot_of|entry_of|head_of|choice_of|choice_byte|u8_at|u16_at|u32_at|u64_at|put_u64|put_u16s|take_apart|put_together|word|show|show_id|title)\('
count '5, parameters that travel together' '\b(d|mut d): Head, slots|out: &mut \[u8\],? ?at: usize|pending: usize, out|kept: usize'
echo "5, facts in three or more contracts: $(grep -hoE '(requires|ensures)( [a-z_]+)? \{ ?[A-Z][A-Za-z]+' crates/*/src/*.rt | awk '{ print $NF }' | sort | uniq -c | sort -rn | awk '2 < $1 { printf "%s %s, ", $2, $1 }')"
count '6, lengths beside, slots, searches by hand' '\[u64; SLOT_SIZE\]|const [A-Z0-9_]+_SIZES: usize|n: usize, bytes|bytes: &(mut )?\[u8(; LONGEST)?\], n|found: bool|at: usize,$|partition_point|is_later|fn below'
count '7, function pointers and dyn' '(: |<|\()(fn\(|&?(mut )?dyn |Box<dyn )'
