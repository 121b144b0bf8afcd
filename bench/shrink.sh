#!/bin/sh
# Times `shrink` on a program of 2,500 actors, of which 100 run, and a script of 200 lines of which three are needed, best of five, with the peak
# of memory. Usage: bench/shrink.sh [COMMAND], after `./flow build`; COMMAND runs in its place.
. "$(dirname "$0")/common.sh"

# Each actor waits for the next one, and the last for a time. A stop while `main` waits throws in all of them: the third of three is one too many.
awk 'BEGIN {
    for (i = 0; i < 2499; i++) {
        if (i == 99 || i == 2498) printf "ACTOR Future<int> step%d(int n) { wait(delay(50)); return n; }\n", i
        else printf "ACTOR Future<int> step%d(int n) { int got = wait(step%d(n + 1)); return got; }\n", i, i + 1
    }
    print "ACTOR Future<Void> main(int p) { int got = wait(step0(p)); trace(got); return Void(); }"
}' >"$work/many.flow"
awk 'BEGIN {
    for (i = 0; i < 99; i++) print "at " i % 40 " cut 0 0"
    print "at 10 stop 0"
    print "at 20 boot 0"
    for (i = 0; i < 98; i++) print "at " 10 + i % 30 " heal 0 0"
    print "at 30 stop 0"
}' >"$work/many.world"

printf 'A program of 2,500 actors, 200 lines of which three are needed: '
for i in 1 2 3 4 5; do
    /usr/bin/time -f '%e %M' -o "$work/time" "$command" shrink "$work/many.flow" "$work/many.world" --monitor errors=201 >"$work/least" 2>/dev/null
    cat "$work/time"
done | sort -n | head -1 | awk '{ printf "%.2f s, %.0f MB\n", $1, $2 / 1024 }'
[ "$(grep -c '^at ' "$work/least")" = 3 ] || { echo 'other than three lines are left' >&2; exit 1; }
