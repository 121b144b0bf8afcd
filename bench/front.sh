#!/bin/sh
# Times the program on files of 1 MiB, best of five runs each: 9,999 prints that are run, and mixed text that the
# lexer reads whole before it is refused; and on texts of 200,000 tokens that are formatted: `v[v[..`, `vector<vector<..`, which are
# refused for their depth, and assignments of elements, which aren't. Usage: bench/front.sh [COMMAND], after `./flow build`; COMMAND
# runs in its place.
. "$(dirname "$0")/common.sh"
: >"$work/world"

awk 'BEGIN {
    pad = sprintf("%82s", ""); gsub(/ /, "x", pad)
    print "ACTOR Future<Void> main(int p) {"
    for (i = 0; i < 9999; i++) printf "    trace(\"%s%06d\");\n", pad, i
    print "    return Void();\n}"
}' >"$work/prints.flow"
awk 'BEGIN {
    for (i = 0; i < 16384; i++) print "int n = 12; /* a\nb */ s.send(\"tx\\n\"); // to the end of the line"
}' >"$work/mixed.flow"

for name in prints mixed; do
    timed "$command" run "$work/$name.flow" "$work/world"
    echo "$name: $(wc -c <"$work/$name.flow") bytes in $least microseconds, last line: $(tail -n 1 "$work/out")"
done

awk 'BEGIN { printf "int f() { return "; for (i = 0; i < 99996; i++) printf "v["; print "v[" }' >"$work/indices.flow"
awk 'BEGIN { printf "struct R { "; for (i = 0; i < 99998; i++) printf "vector<"; print "int" }' >"$work/vectors.flow"
awk 'BEGIN {
    for (a = 0; a < 2; a++) {
        printf "ACTOR void a%d(vector<int> v, vector<vector<int>> w, int i) {\n", a
        for (k = 0; k < 6600; k++) print "    i = w[v[i]][i] + 1;"
        print "}"
    }
}' >"$work/elements.flow"
for name in indices vectors elements; do
    timed "$command" format "$work/$name.flow"
    echo "$name: $(wc -c <"$work/$name.flow") bytes in $least microseconds, $(head -c 60 "$work/out" | head -n 1)"
done
