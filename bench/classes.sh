#!/bin/sh
# Times the reading and judging of class text, best of five runs each, with the peak of memory: what 1 MiB of mixed program text is compiled
# to; some 16 MB of such text, and half of it; and 16 MiB of single signs, which are refused. Each class text has a `main` that ends at
# once, so that `exec` of it takes no time for the run.
# Usage: bench/classes.sh [COMMAND], after `./flow build`; COMMAND runs in its place. bench/classes.sh --mixed writes the program text of the
# first of these.
. "$(dirname "$0")/common.sh"

[ "$1" != --mixed ] || { mixed 0 1015; exit; }

# The class texts of so many parts as one: the records and functions first, and `main` of the first part alone.
joined() {
    echo "classes 2"
    for part in $(seq 0 $(($1 - 1))); do
        sed -n '2,/^class /p' "$work/$part.classes" | sed '$d'
    done
    for part in $(seq 0 $(($1 - 1))); do
        sed -n '/^class /,$p' "$work/$part.classes" | awk -v part="$part" '/^class main / && part > 0 { exit } { print }'
    done
}

for part in 0 1 2 3 4 5 6 7 8 9 10 11 12; do
    mixed $((part * 1015)) $(((part + 1) * 1015)) >"$work/program.flow"
    "$command" compile "$work/program.flow" >"$work/$part.classes"
done
joined 1 >"$work/mixed.classes"
joined 6 >"$work/half.classes"
joined 12 >"$work/large.classes"
awk 'BEGIN { for (i = 0; i < 16384; i++) { for (k = 0; k < 1023; k++) printf ";"; print "" } }' >"$work/signs.classes"
: >"$work/empty.world"

for text in mixed half large signs; do
    best=$(for _ in 1 2 3 4 5; do
        /usr/bin/env time -f %U "$command" exec "$work/$text.classes" "$work/empty.world" 2>&1 >/dev/null | tail -n 1
    done | sort -n | head -n 1)
    peak=$(/usr/bin/env time -f %M "$command" exec "$work/$text.classes" "$work/empty.world" 2>&1 >/dev/null | tail -n 1)
    echo "$text: $(wc -c <"$work/$text.classes") bytes, $best s, $peak KB"
done
