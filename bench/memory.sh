#!/bin/sh
# Refuses one allocation after another, and looks at what is out then: status 7 with a first part of the text that is due, or all of it as
# without a refusal. Of each command the first 100 allocations are refused one by one, and of those after them one in so many that 100 more
# are tried at least, where there are as many. It prints how often memory was wanting and how often all was out, and fails where it was
# neither. Usage: bench/memory.sh [COMMAND], after `./flow build`; COMMAND, a program that takes its memory from `malloc` and `realloc` of a
# shared C library, runs in its place.
. "$(dirname "$0")/common.sh"

# Stands before the C library: counts calls for memory, and refuses the one whose number $REFUSED is.
cat >"$work/refuse.c" <<'TEXT'
typedef unsigned long size;
extern void *__libc_malloc(size), *__libc_realloc(void *, size);
extern char *getenv(const char *);
extern int open(const char *, int, ...);
extern long write(int, const void *, size);
static unsigned long calls, refused;
static int is_refused(void) { return ++calls == refused; }
void *malloc(size n) { return is_refused() ? 0 : __libc_malloc(n); }
void *realloc(void *p, size n) { return is_refused() ? 0 : __libc_realloc(p, n); }
__attribute__((constructor)) static void begin(void) {
    const char *word = getenv("REFUSED");
    refused = 0;
    while (word && *word) refused = refused * 10 + (*word++ - '0');
    calls = 0;
}
__attribute__((destructor)) static void end(void) {
    const char *path = getenv("CALLS");
    char digits[24];
    int k = 24;
    unsigned long n = calls;
    digits[--k] = '\n';
    do digits[--k] = '0' + n % 10; while (n /= 10);
    if (path) { int file = open(path, 577, 384); if (write(file, digits + k, 24 - k)) return; }
}
TEXT
compiler=$(command -v clang || command -v cc || echo "$(dirname "$(dirname "$(readlink -f "$(command -v rt)")")")/toolchain/bin/clang")
"$compiler" -shared -fPIC -O1 -nostdlib -o "$work/refuse.so" "$work/refuse.c"

# The words with this allocation refused (0: none): the status stands in $status, what is out in $work/out.
run() {
    number=$1
    shift
    status=0
    env LD_PRELOAD="$work/refuse.so" CALLS="$work/calls" REFUSED="$number" "$command" "$@" >"$work/out" 2>/dev/null || status=$?
}

wrong=0
try() {
    name=$1
    shift
    run 0 "$@"
    whole=$status
    mv "$work/out" "$work/whole"
    calls=$(cat "$work/calls")
    stride=$(((calls - 100) / 100))
    [ "$stride" -ge 1 ] || stride=1
    number=1 wanting=0 some=0 all=0
    while [ "$number" -le "$calls" ]; do
        run "$number" "$@"
        if [ "$status" = 7 ] && head -c "$(wc -c <"$work/out")" "$work/whole" | cmp -s - "$work/out"; then
            wanting=$((wanting + 1))
            if [ -s "$work/out" ]; then some=$((some + 1)); fi
        elif [ "$status" = "$whole" ] && cmp -s "$work/whole" "$work/out"; then
            all=$((all + 1))
        else
            echo "$name: status $status with allocation $number refused"
            wrong=1
        fi
        if [ "$number" -lt 100 ]; then number=$((number + 1)); else number=$((number + stride)); fi
    done
    echo "$name: $calls allocations, $((wanting + all)) refused one at a time: $wanting answered 7 with a first part, $some of them not empty; $all all of the text"
}

for name in second_operand_never_starts stop_cancels_in_order request_server disk_after_power_loss; do
    try "run $name" run "$top/examples/$name.flow" "$top/examples/$name.world"
done
first=$top/examples/second_operand_never_starts
try "compile second_operand_never_starts" compile "$first.flow"
"$command" compile "$first.flow" >"$work/classes"
try "exec of these classes" exec "$work/classes" "$first.world"
try "run with monitors" run "$top/examples/stop_cancels_in_order.flow" "$top/examples/stop_cancels_in_order.world" --monitor live=3,errors=1
try "bench" bench 3 42
try "upgrade of these classes" upgrade "$work/classes"

# Vectors and void actors: a vector that grows and is shared, one that is let go with the actors that it holds, records of vectors that are
# sent, and void actors that wait.
program() {
    printf '%s\nACTOR Future<Void> main(int p) {\n%s\nreturn Void();\n}\n' "$2" "$3" >"$work/$1.flow"
}
: >"$work/empty.world"
program grown '' 'vector<string> v; int i = 0; while (i < 40) { v.push_back(to_string(i)); vector<string> w = v; w.push_back("x"); i++; } trace(v[39]);'
program cleared 'ACTOR Future<Void> leaf(int n) { wait(Never()); return Void(); }' \
    'state vector<Future<Void>> f; state int k = 0; while (k < 9) { Future<Void> l = leaf(k); f.push_back(l); k++; } f.clear(); trace(f.size());'
program sent 'struct R { vector<Promise<int>> q; };' \
    'Promise<int> q; vector<Promise<int>> e; R r = R(e); r.q.push_back(q); r.q.push_back(q); PromiseStream<R> s; s.send(r); s.send(r); R g = waitNext(s.getFuture()); trace(g.q.size());'
program late 'ACTOR void late(int n, vector<int> v) { wait(delay(n)); v.push_back(n); trace(v[v.size() - 1]); }' \
    'vector<int> v; int i = 0; while (i < 12) { v.push_back(i); late(i, v); i++; }'
for name in grown cleared sent late; do
    try "run $name" run "$work/$name.flow" "$work/empty.world"
done
exit $wrong
