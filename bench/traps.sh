#!/bin/sh
# Looks for what grows faster than it is asked for: each family of programs is run with n things and with 10 n, and the exponent of what its
# work costs is the logarithm to ten of the growth. What a work costs is the instructions of the run, less those of a run of the same
# text that doesn't do it. Usage: bench/traps.sh [COMMAND [FAMILY..]], after `./flow build`; COMMAND runs in its place.
. "$(dirname "$0")/common.sh"
[ $# -eq 0 ] || shift
python3 - "$command" "$work" "$@" <<'CODE'
import math, re, subprocess, sys

command, work, asked = sys.argv[1], sys.argv[2], sys.argv[3:]
LIMITS = 'events 1000000\nturns 1000000\nlatency 1 2\ndiskdelay 1 2\nloss 0\n'


def main(body, before=''):
    return f'{before}ACTOR Future<Void> main(int p) {{\n{body}\nreturn Void();\n}}\n'


def loop(n, body):
    return f'state int i = 0;\nwhile (i < {n}) {{\n{body}\ni++;\n}}'


def world(more='', first=''):
    return first + LIMITS + more


def kills(count, at):
    return ''.join(f'at {at + k} kill 1\n' for k in range(count))


def locals_(n):
    return ''.join(f'int v{k} = 0;\n' for k in range(n))


LEAF = 'ACTOR Future<int> leaf(Future<int> f) {\nint x = wait(f);\nreturn x;\n}\n'
LEAVER = '''ACTOR Future<int> leaver(Future<int> f, int n) {
    state int k = 0;
    while (k < n) {
        choose {
            when (int x = wait(f)) {
                return x;
            }
            when (wait(delay(1))) {
                k++;
            }
        }
    }
    return 0;
}
'''
MANY = 'ACTOR Future<Void> many(Future<int> f, int n) {\nif (n == 0) {\nreturn Void();\n}\nstate Future<int> a = %s;\nstate Future<Void> b = many(f, n - 1);\nint x = wait(a);\nreturn Void();\n}\n'


def many(what, n, end):
    return main(f'state Promise<int> pr;\nstate Future<Void> m = many(pr.getFuture(), {n});\n{end}', MANY % what)


def starts(n, wait):
    """An actor that holds n pending timers, by nested starts."""
    return f'ACTOR Future<Void> late(int n) {{\nif (n == 0) {{\nwait(Never());\n}}\nstate Future<Void> d = {wait};\nstate Future<Void> rest = late(n - 1);\nwait(d);\nreturn Void();\n}}\n'


HELD = 'ACTOR Future<Void> held(int n) {\nif (n == 0) {\nwait(Never());\n}\nstate FutureStream<Packet> in = listen(n);\nstate Future<Void> rest = held(n - 1);\nwait(Never());\nreturn Void();\n}\n'


def calling(n):
    """So many functions, of which one calls the last of the others."""
    others = ''.join(f'int f{k}(int n) {{\nreturn n + 1;\n}}\n' for k in range(n))
    return f'{others}int g(int n) {{\nint i = 0;\nwhile (i < n) {{\ni = f{n - 1}(i);\n}}\nreturn i;\n}}\n'


def fields(n):
    return 'struct Big {\n' + ''.join(f'int f{k};\n' for k in range(n)) + '};\n'


def text(n):
    return '"' + 'a' * n + '"'


# name: (n, program and world with so many things, those of the run that is taken off)
def family(n, program, world_text=None, less=None, less_world=None):
    return n, program, world_text or (lambda n: world()), less, less_world


FAMILIES = {
    'passes of an actor': family(10000, lambda n: main(f'int i = 0;\nwhile (i < {n}) {{\ni++;\n}}')),
    'passes of a function': family(10000, lambda n: main(f'int x = f({n});\ntrace(x);', 'int f(int n) {\nint i = 0;\nwhile (i < n) {\ni = i + 1;\n}\nreturn i;\n}\n')),
    'calls': family(1000, lambda n: main(f'int i = 0;\nwhile (i < {n}) {{\ni = f(i);\n}}', 'int f(int n) {\nreturn n + 1;\n}\n')),
    'functions, 1,000 calls by a function': family(
        400, lambda n: main('int x = g(1000);', calling(n)), None, lambda n: main('int x = g(0);', calling(n))),
    'locals of a function, 1,000 passes': family(
        100, lambda n: main('int x = f(1000);', f'int f(int n) {{\n{locals_(n)}while (v{n - 1} < n) {{\nv{n - 1} = v{n - 1} + 1;\n}}\nreturn 0;\n}}\n'),
        None, lambda n: main('int x = f(0);', f'int f(int n) {{\n{locals_(n)}while (v{n - 1} < n) {{\nv{n - 1} = v{n - 1} + 1;\n}}\nreturn 0;\n}}\n')),
    'places that were filled, 1,000 waits': family(
        100, lambda n: main(f'if (p == 0) {{\n{locals_(n)}}}\n' + loop(1000, 'wait(delay(1));')),
        None, lambda n: main(f'if (p == 0) {{\n{locals_(n)}}}\n' + loop(0, 'wait(delay(1));'))),
    'timers, one after another': family(1000, lambda n: main(loop(n, 'wait(delay(1));'))),
    'timers of many moments': family(1000, lambda n: main('wait(delay(0));\nstate Future<Void> l = late(%d);\nwait(delay(1000000));' % n, starts(n, 'delay(n)'))),
    'timers of one moment': family(1000, lambda n: main('wait(delay(0));\nstate Future<Void> l = late(%d);\nwait(delay(1000000));' % n, starts(n, 'delay(5)'))),
    'waiters fired': family(1000, lambda n: many('leaf(f)', n, 'wait(delay(1));\npr.send(1);\nwait(delay(1));').replace('ACTOR Future<Void> many', LEAF + 'ACTOR Future<Void> many')),
    'waiters dropped': family(1000, lambda n: many('leaf(f)', n, 'wait(delay(1));').replace('ACTOR Future<Void> many', LEAF + 'ACTOR Future<Void> many')),
    'waiters that leave': family(1000, lambda n: many('leaver(f, 3)', n, 'wait(delay(10));').replace('ACTOR Future<Void> many', LEAVER + 'ACTOR Future<Void> many')),
    'branches, 1,000 waits': family(
        6, lambda n: main('state Promise<int> pr;\nstate Future<int> f = pr.getFuture();\n' + loop(1000, 'choose {\n' + ''.join('when (int x%d = wait(f)) {\ntrace(1);\n}\n' % k for k in range(n)) + 'when (wait(delay(1))) {\ntrace(0);\n}\n}'))),
    'a queue': family(1000, lambda n: main(f'state PromiseStream<int> q;\nstate FutureStream<int> s = q.getFuture();\nstate int k = 0;\nwhile (k < {n}) {{\nq.send(k);\nk++;\n}}\n' + loop(n, 'int x = waitNext(s);'))),
    'unsynced writes': family(1000, lambda n: main(loop(n, 'wait(writeFile("f", i, "ab"));') + '\nstring s = wait(readFile("f", 0, 10));\nwait(syncFile("f"));')),
    'files': family(1000, lambda n: main(loop(n, 'state string name = to_string(i);\nwait(writeFile(name, 0, "ab"));\nwait(syncFile(name));'))),
    'reads': family(100, lambda n: main('wait(writeFile("f", 60000, "ab"));\n' + loop(n, 'string s = wait(readFile("f", 0, 1000));'))),
    'packets': family(100, lambda n: main('state FutureStream<Packet> in = listen(7);\n' + loop(n, 'sendTo(0, 7, "abc");\nPacket k = waitNext(in);'))),
    'ports': family(1000, lambda n: main('state Future<Void> h = held(%d);\nwait(delay(1));' % n, HELD)),
    'bytes of 100 printed texts': family(1000, lambda n: main(loop(100, f'trace({text(n)});'))),
    'bytes of 100 printed texts, with escapes': family(1000, lambda n: main(loop(100, 'trace("' + 'abcdefgh\\\\' * (n // 9) + '");'))),
    'processes': family(6, lambda n: main(loop(100, 'wait(delay(1));')), lambda n: world('', f'processes {n}\n')),
    'fields, 1,000 elements': family(
        12, lambda n: main('state PromiseStream<Big> q;\nstate FutureStream<Big> s = q.getFuture();\n' + loop(1000, 'q.send(Big(' + ', '.join(['i'] * n) + '));\nBig b = waitNext(s);'), fields(n)),
        None, lambda n: main('state PromiseStream<Big> q;\nstate FutureStream<Big> s = q.getFuture();\n' + loop(0, 'q.send(Big(' + ', '.join(['i'] * n) + '));\nBig b = waitNext(s);'), fields(n))),
    'passes with a text literal of 60,000 bytes': family(100, lambda n: main(f'string t = "";\n' + loop(n, f'if (t == {text(60000)}) {{\ntrace(1);\n}}'))),
    'kill of a process with timers of one moment': family(
        2000, lambda n: main('wait(delay(0));\nstate Future<Void> l = late(%d);\nwait(Never());' % n, starts(n, 'delay(1000)')), lambda n: world('at 5 kill 1\n', 'processes 3\n'),
        lambda n: main('wait(delay(0));\nstate Future<Void> l = late(%d);\nwait(Never());' % n, starts(n, 'delay(1000)')), lambda n: world('', 'processes 3\n')),
    'kills beside 1,000 timers of others': family(
        100, lambda n: main('if (p == 1) {\nreturn Void();\n}\nwait(delay(0));\nstate Future<Void> l = late(1000);\nwait(Never());', starts(0, 'delay(100000)')), lambda n: world(kills(n, 5), 'processes 2\n'),
        lambda n: main('if (p == 1) {\nreturn Void();\n}\nwait(delay(0));\nstate Future<Void> l = late(1000);\nwait(Never());', starts(0, 'delay(100000)')), lambda n: world('', 'processes 2\n')),
    'timers of others beside 100 kills': family(
        400, lambda n: main('if (p == 1) {\nreturn Void();\n}\nwait(delay(0));\nstate Future<Void> l = late(%d);\nwait(Never());' % n, starts(0, 'delay(100000)')), lambda n: world(kills(100, 5), 'processes 2\n'),
        lambda n: main('if (p == 1) {\nreturn Void();\n}\nwait(delay(0));\nstate Future<Void> l = late(%d);\nwait(Never());' % n, starts(0, 'delay(100000)')), lambda n: world('', 'processes 2\n')),
    'synced files beside 100 kills': family(
        100, lambda n: main(loop(n, 'state string name = to_string(i);\nwait(writeFile(name, 0, "ab"));\nwait(syncFile(name));')), lambda n: world(kills(100, 100000), 'processes 2\n'),
        lambda n: main(loop(n, 'state string name = to_string(i);\nwait(writeFile(name, 0, "ab"));\nwait(syncFile(name));')), lambda n: world('', 'processes 2\n')),
}


def instructions(program, world_text):
    with open(f'{work}/p.flow', 'w') as f:
        f.write(program)
    with open(f'{work}/p.world', 'w') as f:
        f.write(world_text)
    run = subprocess.run(
        ['valgrind', '--tool=cachegrind', '--cache-sim=no', f'--cachegrind-out-file={work}/out', command, 'run', f'{work}/p.flow', f'{work}/p.world'],
        stdout=subprocess.PIPE, stderr=subprocess.PIPE, text=True)
    last = run.stdout.splitlines()[-1] if run.stdout else ''
    if not last.startswith('end '):
        sys.exit(f'{last or run.stderr[-400:]}: {program[:200]}..')
    return int(re.search(r'I\s+refs:\s+([\d,]+)', run.stderr)[1].replace(',', ''))


def cost(n, program, world_text, less, less_world):
    all_of_it = instructions(program(n), world_text(n))
    if less is None:
        return all_of_it - NOTHING
    return all_of_it - instructions(less(n), (less_world or world_text)(n))


NOTHING = instructions(main(''), world())
for name, (n, *texts) in FAMILIES.items():
    if asked and name not in asked:
        continue
    few, many_of_them = cost(n, *texts), cost(10 * n, *texts)
    print(f'{math.log10(max(many_of_them, 1) / max(few, 1)):5.2f}  {name}: {few:,} for {n:,}, {many_of_them:,} for {10 * n:,}', flush=True)
CODE
