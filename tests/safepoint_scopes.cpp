/* Threads of C++ by scopes, beside a coordinator: each callback runs once for each target, exceptions leave scopes, and a refused start keeps the
   party. It ends by itself. tests/safepoint.py builds and runs it. */
#include <atomic>
#include <chrono>
#include <cstdio>
#include <memory>
#include <thread>
#include <unistd.h>

#include "safepoint.hpp"

using Kind = safepoint::Party::Kind;
using safepoint::must;
using safepoint::Refused;
using safepoint::System;
using safepoint::Thread;

struct Bug {};

/* Leaves two methods, and native code, a wait or the VM, by an exception. */
static void fail_inside(Thread &thread, int turn) {
    Thread::Frame outer(thread, 0);
    thread.poll();
    Thread::Frame inner(thread, 1);
    if (turn % 3 == 0) {
        Thread::Native native(thread);
        throw Bug();
    }
    if (turn % 3 == 1) {
        Thread::Blocked blocked(thread);
        throw Bug();
    }
    Thread::Vm vm(thread);
    throw Bug();
}

/* A handshake with all that live, where there is one, and a census: how many answered. */
static int ask_all(System &system, const safepoint::Callback &callback) {
    auto names = system.live();
    auto operation = names.empty() ? 0 : system.submit(names);
    auto census = system.census();
    int answered = 0, failed = operation && system.drive(callback) != operation;
    failed += system.drive() != census;
    for (auto name : names) {
        std::int64_t reply;
        SP_WAIT(reply, sp_reply(system.get(), operation, name));
        answered += reply >= 0;
    }
    return failed ? -1 : answered;
}

/* Exceptions leave scopes while a coordinator works on handshakes and censuses. */
static int exceptions_leave_scopes(int threads) {
    constexpr int turns = 300;
    System system(static_cast<std::size_t>(threads), 1, 2);
    std::atomic<int> done{0}, caught{0}, ran{0};
    auto callback = [&](const sp_served &) { ran++; };
    std::vector<std::thread> all;
    for (int i = 0; i < threads; i++)
        all.emplace_back([&, party = system.fork()]() mutable {
            auto thread = std::make_unique<Thread>(std::move(party), callback);
            for (int turn = 0; turn < turns; turn++) try {
                    fail_inside(*thread, turn);
                } catch (const Bug &) {
                    caught++;
                }
            thread.reset();
            done++;
        });
    int answered = 0, failed = 0;
    for (int told; done < threads; answered += told) {
        told = ask_all(system, callback);
        failed += told < 0;
    }
    for (auto &thread : all) thread.join();
    return failed + (caught != threads * turns) + (ran != answered) + !system.live().empty();
}

static int refused_starts_keep_their_parties(int threads) {
    System system(static_cast<std::size_t>(threads), 1, 1);
    std::vector<safepoint::Party> parties;
    std::vector<std::unique_ptr<Thread>> all;
    int failed = 0;
    for (int i = 0; i < threads; i++) {
        parties.push_back(system.fork());
        all.push_back(std::make_unique<Thread>(system.fork()));
    }
    for (auto &party : parties) try {
            Thread thread(std::move(party));
            failed++;
        } catch (const Refused &refused) {
            failed += refused.answer() != SP_PLACES_FULL || party.live() != system.live();
        }
    all.clear();
    for (auto &party : parties) all.push_back(std::make_unique<Thread>(std::move(party)));
    std::vector<std::uint64_t> names;
    for (auto &thread : all) names.push_back(thread->name());
    return failed + (system.live() != names);
}

/* A running thread asks about itself, and a held one is told by its place. */
static int a_thread_asks() {
    System system(2, 1, 1);
    Thread first(system.fork()), thread(system.fork());
    int failed = first.place() == thread.place();
    auto operation = thread.party().submit({thread.name()});
    std::size_t place = 9;
    Thread::Frame frame(thread, 0);
    Thread::Blocked blocked(thread);
    failed += system.drive([&](const sp_served &served) { place = served.place; }) != operation;
    return failed + (place != thread.place()) + (thread.party().reply(operation, thread.name()) != 1);
}

/* One party is a thread again and again. It exits by hand or with its scope, and leaves its methods then. */
static int a_party_starts_again() {
    System system(1, 1, 1);
    auto party = system.fork();
    int failed = 0;
    for (std::uint64_t life = 1; life < 20; life++) {
        Thread thread(std::move(party));
        failed += thread.name() != life;
        must(sp_call(thread.party().get(), 0));
        party = thread.exit();
        failed += !party.live().empty();
        try {
            thread.back_edge();
            failed++;
        } catch (const Refused &refused) {
            failed += refused.answer() != SP_NOT_THIS;
        }
    }
    return failed;
}

/* So many threads join at once, each by a copy of the system, while the coordinator works. */
static int threads_join_at_once(int threads) {
    constexpr int lives = 10;
    System first(static_cast<std::size_t>(threads), 1, 1);
    auto system = std::move(first);
    std::atomic<int> waiting{0}, done{0}, ran{0}, failed{0};
    auto callback = [&](const sp_served &) { ran++; };
    std::vector<std::thread> all;
    for (int i = 0; i < threads; i++)
        all.emplace_back([&, shared = system.shared()] {
            for (int life = 0; life < lives; life++) {
                for (waiting++; waiting < (life + 1) * threads;) std::this_thread::yield();
                Thread thread(shared.join(), callback);
                failed += thread.party().pending() > 1000000;
                thread.poll();
            }
            done++;
        });
    while (done < threads) {
        system.at_safepoint(callback);
        system.forget();
    }
    for (auto &thread : all) thread.join();
    Thread last(system.shared().join());
    return failed + (last.name() != static_cast<std::uint64_t>(threads * lives) + 1) + (ran == 0);
}

/* A thread that doesn't poll is late, and the request stays open; then it polls. */
static int a_late_thread_is_named() {
    using std::chrono::milliseconds;
    System system(2, 1, 1);
    auto client = system.fork();
    Thread thread(system.fork());
    safepoint::stats_on(true);
    int failed = system.wait_request(milliseconds(0)) != 0 || client.wait_closed_for(1, milliseconds(0)) != true;
    auto operation = client.submit_to_all();
    failed += system.wait_request(milliseconds(0)) != operation;
    failed += system.drive_for(milliseconds(1)) != 0 || client.wait_closed_for(operation, milliseconds(1));
    auto late = system.late();
    failed += late.size() != 1 || late[0].name != thread.name() || late[0].place != thread.place();
    failed += late.empty() || late[0].state != SP_LATE_RUNS || system.pending() != operation;
    thread.poll();
    failed += system.drive_for(std::chrono::hours(1)) != operation;
    failed += !client.wait_closed_for(operation, milliseconds(0));
    auto stats = safepoint::stats();
    safepoint::stats_on(false);
    return failed + (stats.handshakes != 1) + (stats.censuses != 0) + (stats.callbacks.sum == 0);
}

static int callbacks_run_once() {
    constexpr int threads = 3, rounds = 100;
    safepoint::System system(8, 16, 4);
    std::atomic<bool> ends{false};
    std::atomic<int> ready{0}, ran{0};
    auto callback = [&](const sp_served &) { ran++; };
    std::vector<std::thread> all;
    for (int i = 0; i < threads; i++)
        all.emplace_back([&, party = system.fork()]() mutable {
            safepoint::Thread thread(std::move(party), callback);
            ready++;
            while (!ends) {
                safepoint::Thread::Frame frame(thread, 0);
                thread.poll();
                safepoint::Thread::Native native(thread);
            }
        });
    while (ready < threads) std::this_thread::yield();
    int failed = 0;
    for (int i = 0; i < rounds; i++) {
        auto names = system.live();
        auto operation = system.submit(names);
        failed += system.open_kind() != Kind::none;
        if (i % 2) {
            safepoint::wait([&] { return sp_open(system.get()); });
            failed += system.open_kind() != Kind::handshake;
        }
        failed += system.drive(callback) != operation || ran != (i + 1) * threads;
        for (auto name : names) failed += system.reply(operation, name) > 1;
    }
    for (int i = rounds; i < 2 * rounds; i++) {
        auto operation = system.submit(system.live());
        using Next = safepoint::System::Next;
        for (auto next = system.advance(); next != Next::closed; next = system.advance()) {
            if (next == Next::run) {
                failed += system.called().operation != operation || system.called().place >= threads;
                ran++;
            } else {
                failed += system.awaited() > threads;
                std::this_thread::yield();
            }
        }
        failed += ran != (i + 1) * threads || system.open_kind() != Kind::none;
    }
    auto census = system.census();
    safepoint::wait([&] { return sp_open(system.get()); });
    failed += system.open_kind() != Kind::census;
    failed += system.drive() != census || system.open_kind() != Kind::none;
    ends = true;
    for (auto &thread : all) thread.join();
    try {
        system.advance();
        failed++;
    } catch (const safepoint::Refused &refused) {
        failed += refused.answer() != SP_QUEUE_EMPTY;
    }
    try {
        system.invalidate(9);
        failed++;
    } catch (const safepoint::Refused &refused) {
        failed += refused.answer() != SP_UNKNOWN;
    }
    return failed;
}

int main() {
    alarm(300);
    int failed = callbacks_run_once() + a_thread_asks() + a_party_starts_again() + a_late_thread_is_named();
    for (int threads : {1, 4, 16})
        failed += exceptions_leave_scopes(threads) + refused_starts_keep_their_parties(threads);
    for (int threads : {1, 4, 64}) failed += threads_join_at_once(threads);
    if (!failed) std::puts("ok");
    return failed != 0;
}
