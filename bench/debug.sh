#!/bin/sh
# Times `debug` where the run of 10,000 clients in each of four processes is at its fullest, after event 4, best of five, with the peak of memory and
# how many lines are written. Usage: bench/debug.sh [COMMAND], after `./flow build`; COMMAND runs in its place.
. "$(dirname "$0")/common.sh"

"$top/bench/clients.sh" 10000 "$work/clients"
printf 'The state of 10,000 clients in each of four processes after event 4: '
for i in 1 2 3 4 5; do
    /usr/bin/time -f '%e %M' -o "$work/time" "$command" debug "$work/clients.flow" "$work/clients.world" 4 >"$work/view" 2>/dev/null
    cat "$work/time"
done | sort -n | head -1 | awk '{ printf "%.2f s, %.0f MB, ", $1, $2 / 1024 }'
wc -l <"$work/view" | awk '{ print $1, "lines" }'
[ "$(grep -c '^actor ' "$work/view")" = 80008 ] || { echo 'other than 80,008 actors wait' >&2; exit 1; }
