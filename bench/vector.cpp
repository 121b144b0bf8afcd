// The programs of vector.sh by hand, with std::vector and C++20 coroutines: they write the same trace. Usage: vector PROGRAM
#include <coroutine>
#include <cstdint>
#include <cstdio>
#include <cstring>
#include <exception>
#include <string>
#include <utility>
#include <vector>

static std::string out;
static uint64_t actors = 1;

static void line(const char *word, uint64_t number, const char *more = "") {
    char text[64];
    out.append(text, snprintf(text, sizeof text, "%s %llu%s\n", word, (unsigned long long)number, more));
    if (out.size() > 1 << 16) {
        fwrite(out.data(), 1, out.size(), stdout);
        out.clear();
    }
}

struct Cancelled : std::exception {};

// An actor without a result: it runs up to its first wait, and frees itself at its end.
struct Void {
    struct promise_type {
        uint64_t number = ++actors;
        Void get_return_object() { return {}; }
        std::suspend_never initial_suspend() { line("start", number, " beat"); return {}; }
        std::suspend_never final_suspend() noexcept { line("done", number); return {}; }
        void return_void() {}
        void unhandled_exception() { std::terminate(); }
    };
};

// The future of an actor, counted by who holds it; the last one that goes cancels it at its wait.
struct Future {
    struct promise_type {
        uint64_t number = ++actors;
        unsigned held = 0;
        bool cancelled = false;
        Future get_return_object() { return Future(std::coroutine_handle<promise_type>::from_promise(*this)); }
        std::suspend_never initial_suspend() { line("start", number, " leaf"); return {}; }
        std::suspend_always final_suspend() noexcept { return {}; }
        void return_void() {}
        void unhandled_exception() { line("fail", number, " 1101"); }
    };
    using Handle = std::coroutine_handle<promise_type>;

    explicit Future(Handle made) : handle(made) { handle.promise().held++; }
    Future(const Future &other) : handle(other.handle) { handle.promise().held++; }
    Future(Future &&other) noexcept : handle(std::exchange(other.handle, nullptr)) {}
    Future &operator=(Future other) { std::swap(handle, other.handle); return *this; }
    ~Future() {
        if (!handle || --handle.promise().held) return;
        if (!handle.done()) {
            handle.promise().cancelled = true;
            line("cancel", handle.promise().number);
            handle.resume();
        }
        handle.destroy();
    }

    Handle handle;
};

struct Never {
    Future::Handle waiter;
    bool await_ready() { return false; }
    void await_suspend(Future::Handle handle) { waiter = handle; line("wait", handle.promise().number, " 1"); }
    void await_resume() {
        if (waiter.promise().cancelled) {
            line("throw", waiter.promise().number, " 1101");
            throw Cancelled();
        }
    }
};

static Void beat(int64_t) { co_return; }
static Future leaf(int64_t) { co_await Never{}; }

static std::vector<int64_t> filled() {
    std::vector<int64_t> v;
    for (int64_t i = 0; i < 65535; i++) v.push_back(i);
    return v;
}

// The vector is taken by value, as a program's function takes it.
__attribute__((noinline)) static int64_t read(std::vector<int64_t> v) {
    int64_t sum = 0;
    for (int64_t i = 0; i < 1000; i++) sum += v.at(i);
    return sum;
}

static void print(int64_t value) { line("print 1", value); }

int main(int, char **words) {
    const std::string program = words[1];
    out = "trace 1\nevent 1 0 boot 0\nstart 1 main\n";
    if (program == "filled") filled();
    if (program == "each") {
        auto v = filled();
        int64_t sum = 0;
        for (size_t i = 0; i < v.size(); i++) sum += v.at(i);
        print(sum);
    }
    if (program == "calls") {
        auto v = filled();
        int64_t all = 0;
        for (int k = 0; k < 1000; k++) all += read(v);
        print(all);
    }
    if (program == "copies") {
        auto v = filled();
        std::vector<int64_t> w;
        for (int k = 0; k < 10000; k++) {
            w = v;
            asm volatile("" : : "g"(w.data()) : "memory");
        }
        print(w.size());
    }
    if (program == "held" || program == "cleared") {
        std::vector<Future> f;
        for (int k = 0; k < 10000; k++) f.push_back(leaf(k));
        if (program == "cleared") f.clear();
        fwrite(out.data(), 1, out.size(), stdout);
        fflush(stdout);
        _Exit(0);
    }
    if (program == "starts")
        for (int k = 0; k < 1000000; k++) beat(k);
    out += "done 1\nend idle\n";
    fwrite(out.data(), 1, out.size(), stdout);
}
