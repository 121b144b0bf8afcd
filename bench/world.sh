#!/bin/bash
# Times a world that starts again, 40,000 times with a run of `hello` each, in the classes of a program of 2,500 actors; and the telling of
# the state of the large run (`bench 10000 42`) at its fullest: the boundary with the most unfinished actors, which is found in its trace and
# said. The processor's time in seconds, best of five runs of a test, less that of the same test without what is timed.
# Usage: bench/world.sh, after `./flow build`, which builds the program and the tests of flow_machine_tests.
set -e
top=$(cd "$(dirname "$0")/.." && pwd)
tests="${TESTS:-$top/crates/flow_machine_tests/out/flow_machine_tests_tests}"
command="${COMMAND:-$top/crates/flow_prog/out/flow_prog}"
work=$(mktemp -d)
trap 'rm -r "$work"' EXIT
TIMEFORMAT=%3U

best_of() {
    for _ in 1 2 3 4 5; do
        { time "$tests" "speed::$1" >/dev/null 2>&1; } 2>&1
    done | sort -n | head -1
}

# The most unfinished actors by the lines of a trace: those that started, less those that ended; a loss of power ends all of its process.
cat >"$work/fullest.awk" <<'TEXT'
function over() { if (live > most) { most = live; at = event } }
/^event / { over(); event = $2; process = $5; if ($4 == "kill") { live -= own[process]; own[process] = 0 } }
/^start / { live++; own[process]++ }
/^(done|fail) / { live--; own[process]-- }
END { over(); print at, most }
TEXT
"$top/bench/clients.sh" 10000 "$work/clients"
"$command" run "$work/clients.flow" "$work/clients.world" >"$work/trace"
read -r event actors <<<"$(awk -f "$work/fullest.awk" "$work/trace")"
echo "the large run is at its fullest after event $event: $actors unfinished actors"
if ! grep -q "^const FULLEST: u32 = $event;" "$top/crates/flow_machine_tests/src/speed.rt"; then
    echo "flow_machine_tests looks at another event" >&2
    exit 1
fi

none=$(best_of a_program_of_2500_actors)
all=$(best_of forty_thousand_hellos)
awk -v none="$none" -v all="$all" 'BEGIN { printf "40,000 times again, with a run of hello: %.3f (%.3f without)\n", all - none, none }'
there=$(best_of the_large_run_at_its_fullest)
told=$(best_of the_large_run_told_ten_times)
awk -v there="$there" -v told="$told" 'BEGIN { printf "its state at its fullest: %.3f (%.3f to come there)\n", (told - there) / 10, there }'
