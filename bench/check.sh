#!/bin/sh
# Times `check`, best of five runs each, with the peak of memory, and `format` of the same text beside it: 1 MiB of mixed
# text with some 200,000 tokens; 4,096 declarations whose long names differ in their last bytes; one actor of 10,000
# statements, and one of 10,000 of which every second waits; records in chains, each mentioning the one before twice; one
# scope of 4,960 locals; and 7,499 endless loops, with the most blocks an actor may have.
# Usage: bench/check.sh [COMMAND], after `./flow build`; COMMAND runs in its place.
. "$(dirname "$0")/common.sh"

mixed 0 1015 >"$work/mixed.flow"
filled "$work/mixed.flow"
awk 'BEGIN {
    pad = sprintf("%55s", ""); gsub(/ /, "n", pad)
    for (i = 0; i < 4095; i++) printf "int %s%04d(int n) { return n; }\n", pad, i
    print "ACTOR Future<Void> main(int p) {\n    return Void();\n}"
}' >"$work/names.flow"
awk 'BEGIN {
    print "ACTOR Future<Void> main(int p) {\n    int n = 0;"
    for (i = 0; i < 9998; i++) print "    n = n + p;"
    print "    return Void();\n}"
}' >"$work/statements.flow"
awk 'BEGIN {
    print "ACTOR Future<Void> main(int p) {\n    state int n = 0;"
    for (i = 0; i < 4999; i++) print "    wait(delay(n));\n    n = n + p;"
    print "    return Void();\n}"
}' >"$work/waits.flow"
awk 'BEGIN {
    for (i = 0; i < 400; i++) {
        printf "struct R%d_0 { int n; };\n", i
        for (k = 1; k < 10; k++) printf "struct R%d_%d { R%d_%d a; R%d_%d b; };\n", i, k, i, k - 1, i, k - 1
    }
    print "ACTOR Future<Void> main(int p) {\n    return Void();\n}"
}' >"$work/records.flow"
awk 'BEGIN {
    print "ACTOR Future<Void> main(int p) {"
    for (i = 0; i < 4960; i++) printf "    int n%d = p;\n", i
    for (i = 0; i < 4960; i++) printf "    p = n%d;\n", i
    print "    return Void();\n}"
}' >"$work/locals.flow"
loops >"$work/loops.flow"

for name in mixed names statements waits records locals loops; do
    for word in check format; do
        timed "$command" $word "$work/$name.flow"
        echo "$name: $word of $(wc -c <"$work/$name.flow") bytes in $((least / 1000)) ms, $peak KB, last line: $(tail -n 1 "$work/out")"
    done
done
