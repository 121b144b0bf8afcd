#!/bin/bash
# Times 1,000,000 rounds on a heap (a cell is made, held on both sides, waited for and set, its waiter is taken, and its
# references are given up), measures 100,000 suspended frames with four filled slots and a callback each, and times
# 1,000,000 frames listed: 100,000 ten times, and 10,000 a hundred times. The processor's time in seconds, best of five
# runs of their tests. Usage: bench/heap.sh, after `rt test` in crates/flow_cancel_tests, which builds the tests.
. "$(dirname "$0")/tests.sh"
for test in a_million_rounds a_hundred_thousand_frames a_hundred_thousand_frames_listed_ten_times \
    ten_thousand_frames_listed_a_hundred_times; do
    time_of flow_cancel_tests speed::$test
done
