#!/bin/sh
# Counts what a run of clients costs, by callgrind with a first cache of 32 KB for instructions and one for data: instructions, misses of both,
# the bytes of distinct lines of 64 that ran more than 2,000 times, and the functions that took most. These figures are the same on a busy
# machine. Usage: bench/counts.sh [COMMAND [CLIENTS [RUN]]], after `./flow build`; COMMAND runs in its place, with 2,500 clients in each
# of four processes where no number is given. Where RUN is given, it is the whole of what COMMAND is called with.
. "$(dirname "$0")/common.sh"
clients=${2:-2500}
"$top/bench/clients.sh" "$clients" "$work/clients"
words=${3:-run $work/clients.flow $work/clients.world}
# shellcheck disable=SC2086
valgrind --tool=callgrind --callgrind-out-file="$work/out" --cache-sim=yes --I1=32768,8,64 --D1=32768,8,64 --LL=1048576,16,64 \
    --dump-instr=yes "$command" $words >/dev/null 2>"$work/said" || { cat "$work/said" >&2; exit 1; }
python3 - "$work/out" <<'CODE'
import re, sys
# Costs by position: `0xADDRESS LINE COSTS..`, with `+N` and `*` as to the line before; a line behind `calls=` is a call's.
events, totals, lines, functions = [], [], {}, {}
names, function, address, is_call = {}, None, 0, False
for line in open(sys.argv[1]):
    words = line.split()
    if line.startswith('events:'):
        events = words[1:]
    elif line.startswith(('summary:', 'totals:')):
        totals = [int(word) for word in words[1:]]
    elif line.startswith('fn='):
        number, _, name = line[3:].strip().partition(' ')
        if name:
            names[number] = name
        function = names[number]
    elif line.startswith('cfn='):
        number, _, name = line[4:].strip().partition(' ')
        if name:
            names[number] = name
    elif line.startswith('calls='):
        is_call = True
    elif words and re.match(r'(0x|\+|-|\*)', words[0]) and function:
        word = words[0]
        address = int(word, 16) if word[:2] == '0x' else address if word == '*' else address + int(word, 0)
        costs = [int(word) for word in words[2:]]
        if not is_call and costs:
            place = address // 64
            lines[place] = max(lines.get(place, 0), costs[0])
            functions[function] = functions.get(function, 0) + costs[0]
        is_call = False
total = dict(zip(events, totals))
print(f"{total['Ir']:,} instructions, {total['I1mr']:,} misses of instructions, {total['D1mr'] + total['D1mw']:,} of data, "
      f"{64 * sum(1 for count in lines.values() if count > 2000):,} bytes of lines that ran more than 2,000 times")
for name, cost in sorted(functions.items(), key=lambda item: -item[1])[:25]:
    print(f'{cost:14,} {name[:120]}')
CODE
