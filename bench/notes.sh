#!/bin/sh
# Times `check` of 1 MiB of mixed text with some 200,000 tokens and one mistake at its end: the mean of ten runs by processor time, the
# best of five such means, with the peak of memory. The mistakes: none (the program is accepted, and looked through for warnings), a local
# that is lost (U1, whose note reads nothing again), a wrong type, a name that isn't declared, an effect in an argument, a semicolon left
# out, and a byte that begins no token. A note costs what K3 takes beyond U1, which is judged as far and further. Last, 2,400 and 4,800
# tokens of one actor before a semicolon that is left out.
# Usage: bench/notes.sh [COMMAND], after `./flow build`; COMMAND runs in its place.
set -e
top=$(cd "$(dirname "$0")/.." && pwd)
command=${1:-$top/crates/flow_prog/out/flow_prog}
work=$(mktemp -d)
trap 'rm -r "$work"' EXIT

awk 'BEGIN {
    for (i = 0; i < 1000; i++) {
        printf "struct Order%d { int number; Promise<int> reply; }; // what the server is asked for\n", i
        printf "int cost%d(int n, bool twice) { int sum = 0; for (int k = 0; k < n; k++) { if (k %% 2 == 0 || twice) sum += k * (k + 1); else sum -= 1; } return sum; }\n", i
        printf "ACTOR Future<int> ask%d(PromiseStream<Order%d> to, int n) {\n    state int sum = cost%d(n, n > 3);\n", i, i, i
        printf "    Promise<int> reply; // for the answer\n    to.send(Order%d(sum, reply));\n", i
        print "    try { int got = wait(reply.getFuture()); sum += got; } catch (Error& e) { trace(e.code()); }"
        print "    choose { when (wait(delay(n))) { sum++; } when (wait(Never())) { throw end_of_stream(); } }\n    return sum;\n}"
    }
}' >"$work/begin"
awk -v room=$((1048000 - $(wc -c <"$work/begin"))) 'BEGIN { printf "//"; for (i = 0; i < room; i++) printf "x"; print "" }' >>"$work/begin"

# text NAME STATEMENTS: the mixed text with a `main` of these statements
text() {
    { cat "$work/begin"; printf 'ACTOR Future<Void> main(int p) {\n%s\n    return Void();\n}\n' "$2"; } >"$work/$1.flow"
}
text accepted '    trace(p);'
text U1 '    int x = 1; wait(delay(1)); trace(x);'
text K3 '    int x = delay(1);'
text K1 '    trace(q);'
text K5 '    trace(cost1(randomInt(0, 2), true));'
text S5 '    trace(p)'
text S1 '    #trace(p);'
for count in 340 680; do
    awk -v count="$count" 'BEGIN {
        print "ACTOR Future<Void> main(int p) {"
        for (i = 0; i < count; i++) print "    trace(p + 1);"
        print "    trace(p)\n    return Void();\n}"
    }' >"$work/actor$count.flow"
done

export command
for name in accepted U1 K3 K1 K5 S5 S1 actor340 actor680; do
    export file="$work/$name.flow"
    best=$(for _ in 1 2 3 4 5; do
        /usr/bin/env time -f %U sh -c 'for i in 0 1 2 3 4 5 6 7 8 9; do "$command" check "$file" || true; done' 2>&1 >/dev/null | tail -n 1
    done | sort -n | head -n 1)
    peak=$(/usr/bin/env time -f %M "$command" check "$file" 2>&1 >/dev/null | tail -n 1)
    echo "$name: check of $(wc -c <"$file") bytes in $(echo "$best" | awk '{ print $1 * 100 }') ms, $peak KB"
done
