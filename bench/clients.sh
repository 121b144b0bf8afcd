#!/bin/sh
# Writes the program of clients that bench/run.sh and bench/counts.sh run, for so many clients in each of four processes, to NAME.flow and
# NAME.world: clients ask servers over streams, which answer by packets. Usage: bench/clients.sh CLIENTS NAME
set -e
cat >"$2.flow" <<TEXT
struct Ask {
    int n;
    Promise<int> reply;
};
ACTOR Future<Void> server(FutureStream<Ask> asks, int most) {
    state int served = 0;
    while (served < most) {
        Ask a = waitNext(asks);
        served++;
        if (a.n % 7 != 0) {
            a.reply.send(a.n * 2);
        }
    }
    return Void();
}
ACTOR Future<int> client(PromiseStream<Ask> to, int n) {
    int d = randomInt(0, 100);
    wait(delay(d));
    Promise<int> r;
    to.send(Ask(n, r));
    int got = wait(r.getFuture());
    return got;
}
ACTOR Future<int> fan(PromiseStream<Ask> to, int n) {
    if (n == 0) {
        return 0;
    }
    state Future<int> c = client(to, n);
    state Future<int> rest = fan(to, n - 1);
    state int total = 0;
    try {
        int v = wait(c);
        total = v;
    } catch (Error& e) {
        total = 0;
    }
    int w = wait(rest);
    return total + w;
}
ACTOR Future<Void> main(int p) {
    state FutureStream<Packet> in = listen(7);
    state PromiseStream<Ask> asks;
    state Future<Void> s = server(asks.getFuture(), $1);
    int sum = wait(fan(asks, $1));
    trace(sum);
    sendTo((p + 1) % 4, 7, to_string(sum));
    Packet k = waitNext(in);
    trace(k.text);
    return Void();
}
TEXT
printf 'seed 42\nprocesses 4\nevents 1000000\nturns 1000000\nlatency 1 2\ndiskdelay 1 2\nloss 0\n' >"$2.world"
