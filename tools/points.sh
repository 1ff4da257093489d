#!/usr/bin/env bash
# Lists where the code may still read like the older language, by the points of docs/DESIGN-PASS.md: bash tools/points.sh [1..7]
# The lists are candidates: which of them are places is said on that page.
set -u
cd "$(dirname "${BASH_SOURCE[0]}")/.." || exit 1
find_in() { grep -rnE --include=*.rt "$@" crates/*/src; }

# enums of the repository's own; arms and tests that match a number; a number that stands for none
point1() {
    find_in '^\s*(pub |pub\(crate\) )?enum '
    find_in '^ +[^/"]*(\b0x[0-9A-F]+|\b[0-9]+|_ if )[^;"]*=> |matches!\([^)]*0x|kind\([a-z]+\) (==|!=) [0-9]'
    find_in '^ +(return )?0;?$|=> 0,$'
}

# functions that more than one crate or type has, but for the methods of a trait's impl
point2() {
    find_in -o '^\s*(pub |pub\(crate\) )?fn [a-z_]+' | sed -E 's/^([^:]*):[0-9]+: *(pub |pub\(crate\) )?fn /\1 /;s/^([^:]*):[0-9]+:(pub |pub\(crate\) )?fn /\1 /' |
        awk '{ n[$2]++; at[$2] = at[$2] " " $1 } END { for (f in n) if (n[f] > 1) print n[f], f ":" at[f] }' |
        grep -vE '^[0-9]+ (fmt|compare|in_range|rows|may_go_on|may_go_off|puts_off|is_fixed|switch|plug|pull|main|run):' | sort -k2
    find_in -A4 '^\s*(pub )?struct ' | grep -E 'struct |slots|count|below|rows:'
}

# loops that count
point3() { find_in '\bwhile |\bfor [a-z_]+ in [^{]*\.\.'; }

# equality, order, conversion and printing by hand
point4() {
    find_in 'fn (eq|ne|cmp|compare|clone|fmt|from|same_[a-z]+|is_other|is_off|is_playing|digit|number|byte|new|state_of|muid_number|muid_bytes|word_at|channel_count)\b'
    find_in '\bas (u8|u16|u32|u64|usize)\b'
}

# clauses that three or more functions ask, and parameters that travel together
point5() {
    find_in -oh 'requires [a-z_ ]*\{.*\}' | sed -E 's/requires [a-z_]* *\{/requires {/' | sort | uniq -c | awk '$1 > 2'
    find_in 'address: u8, id: \[u8; 5\]|^\s+id: \[u8; 5\],$'
    find_in 'out: &mut \[u8\], at: usize|^\s+at: usize,$|own: Muid, to: Muid|^\s+own: Muid,$|body: \(|named: \('
}

# arrays, counts beside them, searches by hand
point6() {
    find_in '\[[A-Za-z0-9]+; [0-9]+\]' | grep -vE 'u8; (5|4|2|11|3)\]'
    find_in '\b(count|filled|held): '
    find_in 'buffer: &mut \[u8\]|answer: &mut \[u8\]|slots: &mut \['
}

# a switch on which step to run, tables of functions
point7() { find_in '\bdyn |: fn\(|impl Fn|<F: Fn' ; find_in 'fn [a-z_]+.*\b[a-z_]+: bool'; }

for p in ${1:-1 2 3 4 5 6 7}; do
    echo "== point $p"
    "point$p"
done
