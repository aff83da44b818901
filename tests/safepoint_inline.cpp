/* Polls in line, frames that exceptions leave, and coroutines, of C++: beside a coordinator each callback runs once for
   each target. It ends by itself. tests/inline.py builds and runs it. */
#include <atomic>
#include <cstdio>
#include <memory>
#include <thread>
#include <unistd.h>

#include "safepoint.hpp"

using safepoint::Hint;
using safepoint::Refused;
using safepoint::System;
using safepoint::Thread;
using Next = System::Next;

struct Bug {};

static std::uint32_t word() { return __atomic_load_n(&sp_polls.drives, __ATOMIC_RELAXED); }

/* The host's own loop over `advance`, for callbacks that are counted. */
static std::uint64_t advance_all(System &system, std::atomic<int> &ran) {
    for (;;) switch (system.advance()) {
            case Next::run: ran++; break;
            case Next::at_safepoint: break;
            case Next::awaits: std::this_thread::yield(); break;
            case Next::closed: return word();
        }
}

/* Threads that make no call but polls in line. */
static int polls_stop(int threads) {
    constexpr int rounds = 60;
    System system(static_cast<std::size_t>(threads), 2, 1);
    std::atomic<bool> ends{false};
    std::atomic<int> ready{0}, ran{0};
    auto callback = [&](const sp_served &served) { ran += served.kind == SP_HANDSHAKE; };
    std::vector<std::thread> all;
    for (int i = 0; i < threads; i++)
        all.emplace_back([&, party = system.fork()]() mutable {
            Thread thread(std::move(party), callback);
            ready++;
            while (!ends) thread.poll();
        });
    while (ready < threads) std::this_thread::yield();
    int failed = 0, wanted = 0;
    for (int round = 0; round < rounds; round++) {
        auto operation = system.submit_to_all();
        wanted += threads;
        if (round % 3 == 0) failed += system.drive(callback) != operation;
        if (round % 3 == 1) failed += system.drive_four(callback) != 1;
        if (round % 3 == 2) failed += advance_all(system, ran) != 0;
        failed += ran != wanted || system.at_safepoint(callback) != operation + 1 || word() != 0;
    }
    ends = true;
    for (auto &thread : all) thread.join();
    return failed;
}

/* The hint is on from the first `advance` for a request to the last, wherever the system goes meanwhile. */
static int hints_move() {
    System first(2, 1, 1);
    std::atomic<int> ran{0};
    Thread thread(first.fork(), [&](const sp_served &) { ran++; });
    int failed = 0;
    first.submit({thread.name()});
    failed += first.advance() != Next::awaits || word() != 1;
    {
        System second(std::move(first));
        failed += word() != 1;
        thread.poll();
        failed += ran != 1 || second.advance() != Next::closed || word() != 0;
        second.submit({thread.name()});
        failed += second.advance() != Next::awaits || word() != 1;
        thread.poll();
        failed += second.drive() != 2 || word() != 0;
        try {
            second.advance();
            failed++;
        } catch (const Refused &refused) {
            failed += refused.answer() != SP_QUEUE_EMPTY || word() != 0;
        }
        second.submit({thread.name()});
        failed += second.advance() != Next::awaits || word() != 1;
    }
    failed += word() != 0;
    Hint one, two(false);
    failed += word() != 1;
    two = std::move(one);
    one.set(false);
    failed += word() != 1;
    two.set(false);
    thread.back_edge();
    return failed + (word() != 0) + (thread.poll_word() != &sp_polls.drives) + (ran != 3);
}

/* As machine code, which has no scopes: frames that nothing leaves but the Call around them. */
static void enter_and_fail(Thread &thread, int deep) {
    Thread::Call call(thread, 0);
    for (int i = 0; i < deep; i++) thread.enter(static_cast<std::uint32_t>(i) % 2), thread.poll();
    if (deep) thread.leave();
    throw Bug();
}

static int exceptions_leave_calls(int threads) {
    constexpr int turns = 200;
    System system(static_cast<std::size_t>(threads), 1, 2);
    std::atomic<int> done{0}, failed{0}, ran{0};
    auto callback = [&](const sp_served &served) { ran += served.kind == SP_HANDSHAKE; };
    std::vector<std::unique_ptr<Thread>> started;
    std::vector<std::thread> all;
    std::atomic<int> ready{0};
    for (int i = 0; i < threads; i++)
        all.emplace_back([&, party = system.fork()]() mutable {
            Thread thread(std::move(party), callback);
            ready++;
            for (int turn = 0; turn < turns; turn++) {
                Thread::Frame frame(thread, 1);
                try {
                    enter_and_fail(thread, turn % 20);
                } catch (const Bug &) {
                    failed += thread.depth() != 1;
                }
            }
            for (int i = 0; i < 5; i++) thread.enter(0);
            thread.unwind_to(9);
            failed += thread.depth() != 5;
            thread.unwind_to(2);
            failed += thread.depth() != 2;
            done++;
            while (done <= threads) thread.poll();
        });
    while (ready < threads) std::this_thread::yield();
    int wanted = 0;
    for (; done < threads; wanted += threads) {
        auto operation = system.submit_to_all();
        failed += system.drive(callback) != operation;
    }
    done++;
    for (auto &thread : all) thread.join();
    return failed + (ran != wanted) + !system.live().empty();
}

/* Two coroutines without stacks of their own, on one thread of the host. */
static int coroutines_switch() {
    constexpr int rounds = 50;
    System system(2, 1, 1);
    std::atomic<bool> ends{false};
    std::atomic<int> ready{0}, ran{0}, failed{0};
    auto callback = [&](const sp_served &served) { ran += served.kind == SP_HANDSHAKE; };
    std::thread host([&, one = system.fork(), two = system.fork()]() mutable {
        Thread first(std::move(one), callback);
        first.suspend();
        Thread second(std::move(two), callback);
        second.enter(0);
        try {
            first.switch_to(second);
            failed++;
        } catch (const Refused &refused) {
            failed += refused.answer() != SP_ILLEGAL;
        }
        second.switch_to(first);
        first.switch_to(second);
        second.suspend();
        second.resume();
        ready++;
        while (!ends) {
            second.poll();
            second.switch_to(first);
            first.poll();
            first.switch_to(second);
        }
    });
    while (!ready) std::this_thread::yield();
    for (int round = 1; round <= rounds; round++) {
        auto operation = system.submit_to_all();
        failed += system.drive(callback) != operation || ran != 2 * round;
        failed += system.at_safepoint(callback) != operation + 1;
    }
    ends = true;
    host.join();
    return failed + !system.live().empty();
}

int main() {
    alarm(300);
    int failed = hints_move() + coroutines_switch();
    for (int threads : {1, 4, 16}) failed += polls_stop(threads) + exceptions_leave_calls(threads);
    if (!failed) std::puts("ok");
    return failed != 0;
}
