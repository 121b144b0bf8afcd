#!/bin/bash
# Times the parts of the world, the processor's time in seconds, best of five runs of a test each: 1,000,000 pending
# events, 40,000 of them at a time; 1,000,000 packets; 100,000 writes of 100 bytes, a sync and a full read of a file;
# and a list of 65,535 ints made, copied 10,000 times and dropped.
# Usage: bench/parts.sh, after `rt test` in crates/flow_parts_tests, which builds the tests.
. "$(dirname "$0")/tests.sh"
for test in timers::a_million_with_forty_thousand_pending links::a_million_packets disks::many_small_writes \
    values::a_list_of_65535_copied_ten_thousand_times; do
    time_of flow_parts_tests $test
done
