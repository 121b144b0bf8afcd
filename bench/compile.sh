#!/bin/sh
# Times `compile` on 200,000 tokens of mixed text, best of five runs, with the peak of memory, beside what a C++ compiler takes to parse the same
# bytes (`g++ -std=c++17 -fsyntax-only`, behind declarations of what the language has). And it looks that class text comes out whole.
# Usage: bench/compile.sh [COMMAND], after `./flow build`; COMMAND runs in its place.
. "$(dirname "$0")/common.sh"

mixed 0 1015 >"$work/mixed.flow"
cat >"$work/prelude.hpp" <<'P'
struct Void {};
struct Error { long long code() const; };
template <class T> struct Future { Future(T); };
template <class T> struct Promise { Future<T> getFuture() const; };
template <class T> struct PromiseStream { void send(T) const; };
template <class T> T wait(Future<T>);
Future<Void> delay(long long);
Future<Void> Never();
void trace(long long);
Error end_of_stream();
#define ACTOR
#define state
#define choose
#define when(...) if (__VA_ARGS__; true)
#define main flow_main
#define int long long
P
# a record is made by a call: C++ has that in braces
sed -E 's/Order([0-9]+)\(sum, reply\)/Order\1{sum, reply}/' "$work/mixed.flow" >"$work/mixed.cpp"

timed "$command" compile "$work/mixed.flow"
echo "compile: $((least / 1000)) ms, $peak KB; $(wc -c <"$work/mixed.flow") bytes to $(wc -c <"$work/out"), $(grep -c '^class ' "$work/out") classes"
if command -v g++ >/dev/null; then
    timed g++ -std=c++17 -fsyntax-only -include "$work/prelude.hpp" "$work/mixed.cpp"
    echo "g++ -fsyntax-only: $((least / 1000)) ms, $peak KB"
fi
