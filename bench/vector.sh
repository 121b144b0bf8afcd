#!/bin/sh
# Times vectors and void actors, best of five runs each, less those of a run that doesn't do it: 65,535 elements put behind one another and
# each read; a function that takes such a vector and reads 1,000 of it, called 1,000 times; 10,000 copies of one; 10,000 futures of
# suspended actors that are let go by `clear`; and 1,000,000 starts of a void actor that ends at once. Beside them stands what the same programs
# take by hand (vector.cpp), where there is a C++ compiler. Usage: bench/vector.sh [COMMAND], after `./flow build`; COMMAND runs in its place.
. "$(dirname "$0")/common.sh"
printf 'events 1000000\nturns 1000000\n' >"$work/world"

# program NAME BEFORE BODY: `main` of this body behind these declarations
program() {
    printf '%s\nACTOR Future<Void> main(int p) {\n%s\nreturn Void();\n}\n' "$2" "$3" >"$work/$1.flow"
}

# ran NAME: the least time of a run of that program in microseconds
ran() {
    timed "$command" run "$work/$1.flow" "$work/world"
    tail -n 1 "$work/out" | grep -q '^end ' || { echo "$1: no run: $(head -n 1 "$work/out")" >&2; exit 1; }
    printf '%s' "$least"
}

filled='vector<int> v; int i = 0; while (i < 65535) { v.push_back(i); i++; }'
read='int read(vector<int> v) { int i = 0; int sum = 0; while (i < 1000) { sum += v[i]; i++; } return sum; }'
leaf='ACTOR Future<Void> leaf(int n) { wait(Never()); return Void(); }'
held='state vector<Future<Void>> f; state int k = 0; while (k < 10000) { Future<Void> l = leaf(k); f.push_back(l); k++; }'
beat='ACTOR void beat(int n) { }'

program empty '' ''
program filled '' "$filled"
program each '' "$filled int sum = 0; i = 0; while (i < 65535) { sum += v[i]; i++; } trace(sum);"
program calls "$read" "state $filled state int k = 0; state int all = 0; while (k < 1000) { all += read(v); k++; if (k % 100 == 0) { wait(delay(1)); } } trace(all);"
program copies '' "$filled vector<int> w; int k = 0; while (k < 10000) { w = v; k++; } trace(w.size());"
program held "$leaf" "$held wait(Never());"
program cleared "$leaf" "$held f.clear(); wait(Never());"
program passes '' 'state int k = 0; while (k < 1000000) { k++; if (k % 100000 == 0) { wait(delay(1)); } }'
program starts "$beat" 'state int k = 0; while (k < 1000000) { beat(k); k++; if (k % 100000 == 0) { wait(delay(1)); } }'

# by_hand NAME: the same by the C++ program
compiler=$(command -v g++ || command -v clang++ || true)
[ -z "$compiler" ] || "$compiler" -std=c++20 -O2 -o "$work/vector" "$top/bench/vector.cpp"
by_hand() {
    [ -n "$compiler" ] || { printf 0; return; }
    timed "$work/vector" "$1"
    printf '%s' "$least"
}

# told WHAT MOST NAME BASE: the time of a run less that of another, and what it may be, both in microseconds; and the same by hand
told() {
    echo "$1: $(($(ran "$3") - $(ran "$4"))) microseconds, $2 at most; by hand $(($(by_hand "$3") - $(by_hand "$4")))"
}

told '65,535 elements, and each read' 40000 each empty
told '1,000 calls that read 1,000 of 65,535' 600000 calls filled
told '10,000 copies of 65,535 elements' 1200000 copies filled
told '10,000 futures of suspended actors cleared' 30000 cleared held
told '1,000,000 starts of a void actor' 500000 starts passes
