#!/bin/sh
# Times runs, best of nine each, in turn, with the peak of memory: 10,000 clients that ask four servers over streams and answer by
# packets, with no monitor and with all three, which never stop it; a loop of 1,000,000 passes in an actor; a cascade of 10,000 nested
# starts, and of 10,000 drops at their end; 100,000 events of one timer each; `bench` of the clients, whose lines are only counted; `exec` of
# 1.2 MB of classes, most of which are only read and judged; and starting with no words, with words that are no command and with a file
# that is missing. Usage: bench/run.sh [COMMAND [NAME=OTHER..]], after `./flow build`; COMMAND runs in its place. Each OTHER is a command with
# its words, such as the same clients by other means; it is run in the same rounds, and its least time printed under its name.
. "$(dirname "$0")/common.sh"
[ $# -eq 0 ] || shift

"$top/bench/clients.sh" 10000 "$work/clients"

cat >"$work/loop.flow" <<'TEXT'
ACTOR Future<Void> main(int p) {
    int i = 0;
    while (i < 1000000) {
        i++;
    }
    trace(i);
    return Void();
}
TEXT

cat >"$work/starts.flow" <<'TEXT'
ACTOR Future<Void> leaf(int n) {
    if (n == 0) {
        return Void();
    }
    state Future<Void> next = leaf(n - 1);
    wait(Never());
    return Void();
}
ACTOR Future<Void> main(int p) {
    state Future<Void> first = leaf(10000);
    wait(delay(1));
    return Void();
}
TEXT

cat >"$work/events.flow" <<'TEXT'
ACTOR Future<Void> main(int p) {
    state int i = 0;
    while (i < 100000) {
        wait(delay(1));
        i++;
    }
    return Void();
}
TEXT
for name in loop starts events; do
    printf 'events 1000000\nturns 1000000\n' >"$work/$name.world"
done

# Some 1.2 MB of classes, with a `main` that ends at once.
"$top/bench/classes.sh" --mixed >"$work/mixed.flow"
"$command" compile "$work/mixed.flow" >"$work/mixed.classes"
: >"$work/empty.world"

# once NAME WORDS..: one run, kept where it is the shortest of its name so far
once() {
    name=$1
    shift
    other "$name" "$command" "$@"
}

# other NAME COMMAND WORDS..: the same of any command
other() {
    name=$1
    shift
    start=$(date +%s%N)
    /usr/bin/env time -f '%M' -o "$work/peak" "$@" >"$work/out" 2>/dev/null || true
    took=$((($(date +%s%N) - start) / 100000))
    if [ ! -f "$work/$name.best" ] || [ "$took" -lt "$(cat "$work/$name.best")" ]; then echo "$took" >"$work/$name.best"; fi
    echo "$(tail -n 1 "$work/peak") KB, $(wc -l <"$work/out") lines, last: $(tail -n 1 "$work/out")" >"$work/$name.told"
}

for _ in 1 2 3 4 5 6 7 8 9; do
    for name in clients loop starts events; do
        once "$name" run "$work/$name.flow" "$work/$name.world"
    done
    once monitored run "$work/clients.flow" "$work/clients.world" --monitor live=1000000,errors=1000000,until=1000001
    once bench bench 10000 42
    once exec exec "$work/mixed.classes" "$work/empty.world"
    once nothing
    once usage run one two --monitor live=1,live=2
    once missing run "$work/none" "$work/none"
    for named; do
        # shellcheck disable=SC2086
        other "${named%%=*}" ${named#*=}
    done
done
for named in clients monitored loop starts events bench exec nothing usage missing "$@"; do
    name=${named%%=*}
    awk -v name="$name" -v told="$(cat "$work/$name.told")" '{ printf "%s: %.1f ms, %s\n", name, $1 / 10, told }' "$work/$name.best"
done
