#!/bin/sh
# Times lowering, best of five runs each, with the peak of memory: `run` in a world without events reads, judges and lowers a
# program, `compile` besides writes its classes, and `check` only reads and judges. An actor of weight 60,000; 1 MiB of mixed text with some 200,000 tokens;
# and the longest lists of what a catch drops, 25 million entries: 5,000 locals in a `try`, and 2,490 branches behind them.
# Usage: bench/lower.sh [COMMAND], after `./flow build`; COMMAND runs in its place.
. "$(dirname "$0")/common.sh"
echo "events 0" >"$work/world"

loops >"$work/loops.flow"
mixed 0 1015 >"$work/mixed.flow"
awk 'BEGIN {
    print "ACTOR Future<Void> main(int p) {\n    try {"
    for (i = 0; i < 5000; i++) printf "        int n%d = p;\n", i
    for (i = 0; i < 2490; i++) print "        if (p > 0) { p++; }"
    print "    } catch (Error& e) { }\n    return Void();\n}"
}' >"$work/drops.flow"

for name in loops mixed drops; do
    for word in check run compile; do
        world=
        [ $word != run ] || world=$work/world
        # shellcheck disable=SC2086
        timed "$command" $word "$work/$name.flow" $world
        echo "$name: $word in $((least / 1000)) ms, $peak KB, last line: $(tail -n 1 "$work/out")"
    done
done
