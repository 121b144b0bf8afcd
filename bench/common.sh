# What the scripts of this folder begin with, read by `.`: where the repository, the program and a folder for texts are, which goes at the end;
# program texts that more than one of them has; and how a command is timed. The first word of a script is a command that runs in place of the
# built program.
# shellcheck shell=sh disable=SC2034
set -e
top=$(cd "$(dirname "$0")/.." && pwd)
command=${1:-$top/crates/flow_prog/out/flow_prog}
work=$(mktemp -d)
trap 'rm -r "$work"' EXIT

# mixed FROM TO: records, functions and actors with names of their own, by numbers from FROM up to TO, and a `main` that ends at once. The first
# 1,015 have some 200,000 tokens.
mixed() {
    awk -v from="$1" -v to="$2" 'BEGIN {
        for (i = from; i < to; i++) {
            printf "struct Order%d { int number; Promise<int> reply; };\n", i
            printf "int cost%d(int n, bool twice) { int sum = 0; for (int k = 0; k < n; k++) { if (k %% 2 == 0 || twice) sum += k * (k + 1); else sum -= 1; } return sum; }\n", i
            printf "ACTOR Future<int> ask%d(PromiseStream<Order%d> to, int n) {\n    state int sum = cost%d(n, n > 3);\n", i, i, i
            printf "    Promise<int> reply;\n    to.send(Order%d(sum, reply));\n", i
            print "    try { int got = wait(reply.getFuture()); sum += got; } catch (Error& e) { trace(e.code()); }"
            print "    choose { when (wait(delay(n))) { sum++; } when (wait(Never())) { throw end_of_stream(); } }\n    return sum;\n}"
        }
        print "ACTOR Future<Void> main(int p) {\n    return Void();\n}"
    }'
}

# An actor of weight 60,000: endless loops, with the most blocks that one may have.
loops() {
    awk 'BEGIN {
        print "ACTOR Future<Void> main(int p) {"
        for (i = 0; i < 7499; i++) print "    while (true) { }"
        print "    return Void();\n}"
    }'
}

# filled FILE: a text is filled up to 1 MiB with a comment.
filled() {
    awk -v room=$((1048576 - $(wc -c <"$1") - 3)) 'BEGIN { printf "//"; for (i = 0; i < room; i++) printf "x"; print "" }' >>"$1"
}

# timed WORD..: runs a command five times. Its least time in microseconds is then $least, its peak of memory in KB $peak, and $work/out has what
# it wrote. Its status isn't looked at, since some of these texts are refused.
timed() {
    least=
    for _ in 1 2 3 4 5; do
        start=$(date +%s%N)
        "$@" >"$work/out" 2>/dev/null || true
        took=$((($(date +%s%N) - start) / 1000))
        if [ -z "$least" ] || [ "$took" -lt "$least" ]; then least=$took; fi
    done
    peak=$(/usr/bin/env time -f %M "$@" 2>&1 >/dev/null | tail -n 1)
}
