#!/bin/bash
# Times a plain function with a loop of 1,000,000 passes, a comparison and an addition each, best of five runs of its
# test. Usage: bench/eval.sh, after `rt test` in crates/flow_eval_tests, which builds the tests.
. "$(dirname "$0")/tests.sh"
time_of flow_eval_tests tests::statements::a_million_passes
