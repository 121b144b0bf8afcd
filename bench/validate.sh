#!/bin/bash
# Times the verdict on class programs, the processor's time in seconds, best of five runs of a test each, with the peak of memory in KB: a
# class of 100,000 blocks, each of which fills one of 100,000 places; and an ordinary class program of 16 MiB of class text, which is read
# before it is judged. Each stands behind the test that only makes the program, or reads it: the verdict takes the differences.
# Usage: bench/validate.sh, after `rt test` in crates/flow_validate_tests, which builds the tests.
. "$(dirname "$0")/tests.sh"
for test in a_hundred_thousand_blocks_and_places_are_made a_hundred_thousand_blocks_and_places_are_judged \
    sixteen_mebibytes_are_read sixteen_mebibytes_are_judged; do
    time_of flow_validate_tests tests::$test
done
