# How a test is timed, for the scripts of this folder that time tests, read by `.` of bash.
# shellcheck shell=bash
set -e
top=$(cd "$(dirname "$0")/.." && pwd)
TIMEFORMAT=%3U

# time_of CRATE TEST: the least processor time of a test of a crate, in seconds, of five runs, and its peak of memory.
time_of() {
    local tests="$top/crates/$1/out/$1_tests" least peak
    "$tests" "$2" >/dev/null
    least=$(for _ in 1 2 3 4 5; do
        { time "$tests" "$2" >/dev/null 2>&1; } 2>&1
    done | sort -n | head -n 1)
    peak=$(/usr/bin/env time -f %M "$tests" "$2" 2>&1 >/dev/null | tail -n 1)
    echo "${2#*::}: $least s, $peak KB"
}
