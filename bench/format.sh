#!/bin/sh
# Times `format` on texts of 1 MiB, best of five runs each, with the peak of memory: statements of many kinds; few tokens
# in long comments; and statements in 60 braces, whose canonical text is some 16 times as long. Usage: bench/format.sh [COMMAND], after `./flow build`; COMMAND runs in its place.
. "$(dirname "$0")/common.sh"

# texts are filled up to 1 MiB with a comment
awk 'BEGIN {
    for (i = 0; i < 1200; i++) {
        printf "ACTOR Future<int> a%d(int n, Promise<string> to) {\n  state int sum = 0; // so far\n", i
        print "  for (int i = 0; i < n; i++) { if (i % 2 == 0) sum += i * (i + 1); else { wait(delay(1)); continue; } }"
        print "  choose { when (int x = wait(other(n))) { to.send(\"got \" + to_string(x)); } when (wait(Never())) throw; }"
        print "  try { wait(f(sum)); } catch (Error& e) { trace(e.code()); } while (!done && n >= 1) n--;\n  return sum;\n}"
    }
}' >"$work/mixed.flow"
awk 'BEGIN {
    for (i = 0; i < 9000; i++) print "struct a" i % 9 " { int n; }; /* the record of that number and what it has to hold */"
}' | head -n 4000 >"$work/comments.flow"
awk 'BEGIN {
    for (f = 0; f < 7; f++) {
        printf "int f%d() {", f
        for (i = 0; i < 60; i++) printf "{"
        for (i = 0; i < 9300; i++) printf "x++;\n"
        for (i = 0; i < 61; i++) printf "}"
    }
}' >"$work/deep.flow"
for name in mixed comments deep; do
    filled "$work/$name.flow"
done

for name in mixed comments deep; do
    timed "$command" format "$work/$name.flow"
    echo "$name: $(wc -c <"$work/$name.flow") bytes to $(wc -c <"$work/out") in $least microseconds, $peak KB"
done
