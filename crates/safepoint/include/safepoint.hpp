/* safepoint_wait.h for C++14 and later: a system, and threads of it, by RAII. What a call may answer and
   who may call it is said in safepoint.h. */
#ifndef SAFEPOINT_HPP
#define SAFEPOINT_HPP

#include <chrono>
#include <cstdint>
#include <functional>
#include <memory>
#include <stdexcept>
#include <string>
#include <utility>
#include <vector>

#include "safepoint_wait.h"

namespace safepoint {

/* A refusal. */
class Refused : public std::runtime_error {
public:
    explicit Refused(std::int64_t answer) : std::runtime_error(sp_text(answer)), answer_(answer) {}
    std::int64_t answer() const noexcept { return answer_; }

private:
    std::int64_t answer_;
};

inline std::uint64_t must(std::int64_t answer) {
    if (answer < 0) throw Refused(answer);
    return static_cast<std::uint64_t>(answer);
}

/* Makes a call of safepoint.h until it doesn't answer SP_AGAIN. */
template <class Call> std::uint64_t wait(Call call) {
    std::int64_t answer;
    SP_WAIT(answer, call());
    return must(answer);
}

/* How long a call waits at most, for C: no time where it is negative. */
inline std::uint64_t at_most(std::chrono::nanoseconds time) {
    return time.count() > 0 ? static_cast<std::uint64_t>(time.count()) : 0;
}

/* A number above 0, or 0 if the time is over. */
inline std::uint64_t unless_over(std::int64_t answer) {
    return answer == SP_TIMEOUT ? 0 : must(answer);
}

/* What this process counts since stats_on(true). */
inline void stats_on(bool on) { sp_stats_on(on); }
inline sp_statistics stats() {
    sp_statistics stats{};
    sp_stats(&stats);
    return stats;
}

/* The same of a call that asks: a coordinator wakes that waits for requests. */
template <class Call> std::uint64_t ask(Call call) {
    auto number = wait(call);
    sp_ring();
    return number;
}

using Callback = std::function<void(const sp_served &)>;

/* Calls a `Callback` that stands behind `with`, which may be null. It throws nothing: a callback
   at a safe point ends by itself. */
inline void at_safe_point(void *with, const sp_served *served) noexcept {
    auto callback = static_cast<const Callback *>(with);
    if (callback && *callback) (*callback)(*served);
}

/* A party stands at another address from here on (safepoint_check.h). */
inline void moved(sp_party &party) noexcept {
#ifdef SP_CHECK
    sp_checked_moved(&party);
#else
    static_cast<void>(party);
#endif
}

/* A party: what is freed with its owner, and isn't copied. */
class Party {
public:
    Party() = default;
    Party(const Party &) = delete;
    Party &operator=(const Party &) = delete;
    Party(Party &&other) noexcept : party_(std::exchange(other.party_, sp_party{})) {
        moved(party_);
    }
    Party &operator=(Party &&other) noexcept {
        std::swap(party_, other.party_);
        moved(party_);
        moved(other.party_);
        return *this;
    }
    ~Party() { sp_free(&party_); }

    std::uint64_t install(std::uint32_t method) {
        return wait([&] { return sp_install(&party_, method); });
    }
    void invalidate(std::uint64_t serial) {
        wait([&] { return sp_invalidate(&party_, serial); });
    }
    /* A handshake of these names waits: its number. */
    std::uint64_t submit(const std::vector<std::uint64_t> &names, std::uint32_t asks = SP_DEPTH,
                         std::uint64_t serial = 0) {
        for (auto name : names) must(sp_target(&party_, name));
        return ask([&] { return sp_submit(&party_, asks, serial); });
    }
    /* The same of all threads that live when it is submitted. */
    std::uint64_t submit_to_all(std::uint32_t asks = SP_DEPTH, std::uint64_t serial = 0) {
        must(sp_target_all(&party_));
        return ask([&] { return sp_submit(&party_, asks, serial); });
    }
    std::uint64_t census() {
        return ask([&] { return sp_census(&party_); });
    }
    std::uint64_t reply(std::uint64_t operation, std::uint64_t name) {
        return wait([&] { return sp_reply(&party_, operation, name); });
    }
    std::vector<std::uint64_t> live() {
        std::vector<std::uint64_t> names;
        std::uint64_t name = 0;
        while ((name = wait([&] { return sp_live_after(&party_, name); }))) names.push_back(name);
        return names;
    }
    enum class Kind { none = SP_NONE, handshake = SP_HANDSHAKE, census = SP_CENSUS };
    /* Of which kind the open requests are. */
    Kind open_kind() {
        return static_cast<Kind>(wait([&] { return sp_open_kind(&party_); }));
    }
    /* The least number of a request that is open or waits, or 0. */
    std::uint64_t pending() {
        return wait([&] { return sp_pending(&party_); });
    }
    /* Waits until the request of the number, and each before it, is closed. */
    void wait_closed(std::uint64_t number) { must(sp_wait_closed(&party_, number)); }
    /* The same for so long at most: whether they are closed. */
    bool wait_closed_for(std::uint64_t number, std::chrono::nanoseconds time) {
        std::int64_t answer = sp_wait_closed_for(&party_, number, at_most(time));
        return answer != SP_TIMEOUT && must(answer) == 0;
    }
    /* Waits until a request is open or waits: the least number of these, or 0 if the time is over.
       Who asks by C wakes it by sp_ring. */
    std::uint64_t wait_request(std::chrono::nanoseconds time) {
        return unless_over(sp_wait_request(&party_, at_most(time)));
    }
    void forget() {
        wait([&] { return sp_forget(&party_); });
    }
    Party fork() {
        Party other;
        must(sp_fork(&party_, &other.party_));
        return other;
    }
    sp_party *get() noexcept { return &party_; }

protected:
    sp_party party_{};
};

/* While it is on, each poll in line goes the slow way (safepoint_wait.h): for a host that calls sp_tell or sp_advance
   itself. */
class Hint {
public:
    explicit Hint(bool is_on = true) noexcept { set(is_on); }
    Hint(Hint &&other) noexcept : is_on_(std::exchange(other.is_on_, false)) {}
    Hint &operator=(Hint &&other) noexcept {
        std::swap(is_on_, other.is_on_);
        return *this;
    }
    ~Hint() { set(false); }
    void set(bool is_on) noexcept {
        if (is_on && !is_on_) sp_polls_begin();
        if (is_on_ && !is_on) sp_polls_end();
        is_on_ = is_on;
    }

private:
    bool is_on_ = false;
};

/* A system as a value that threads share: each thread may copy it, and `join` at any time. */
class SharedSystem {
public:
    /* A further party of the system, which starts as a Thread or stays a client. */
    Party join() const {
        Party other;
        must(sp_system_join(system_.get(), other.get()));
        return other;
    }

private:
    friend class System;
    struct Free {
        void operator()(sp_system *system) const noexcept {
            sp_system_free(system);
            delete system;
        }
    };
    SharedSystem(std::size_t places, std::size_t slots, std::size_t methods)
        : system_(new sp_system{}, Free()) {
        must(sp_system_make(system_.get(), places, slots, methods));
    }

    std::shared_ptr<sp_system> system_;
};

/* A system, as its coordinator. */
class System : public Party {
public:
    System(std::size_t places, std::size_t slots, std::size_t methods)
        : shared_(places, slots, methods) {
        party_ = std::exchange(*sp_system_coordinator(shared_.system_.get()), sp_party{});
        moved(party_);
    }

    /* The system, to pass to threads that join it. Their parties may outlive the coordinator. */
    const SharedSystem &shared() const noexcept { return shared_; }

    /* Works the oldest request to its Close: its number. */
    std::uint64_t drive(Callback callback = {}) {
        return ended(sp_drive(&party_, at_safe_point, &callback));
    }
    /* The same for so long at most: 0 if the time is over. Then the request stays open, and the next
       drive continues. */
    std::uint64_t drive_for(std::chrono::nanoseconds time, Callback callback = {}) {
        std::int64_t answer = sp_drive_for(&party_, at_safe_point, &callback, at_most(time));
        return answer == SP_TIMEOUT ? 0 : ended(answer);
    }
    /* The threads that are awaited, where the time of `drive_for` was over or `advance` said `awaits`. */
    std::vector<sp_late_thread> late() {
        std::vector<sp_late_thread> list(64);
        list.resize(must(sp_late(&party_, list.data(), list.size())));
        return list;
    }
    std::uint64_t drive_four(Callback callback = {}) {
        return ended(sp_drive_four(&party_, at_safe_point, &callback));
    }
    /* Runs a VM operation: the callback runs once while all live threads are held (its `kind` is
       SP_CENSUS), and for the targets of handshakes that were submitted before. */
    std::uint64_t at_safepoint(Callback callback) {
        return ended(sp_at_safepoint(&party_, at_safe_point, &callback));
    }
    /* For a host with its own waits: works on the oldest request as far as that goes without
       waiting, and says what comes next. `closed`: it is closed. `run`: the host runs its callback
       for what `called` tells. `at_safepoint`: all live threads are held, and the host runs its VM
       operation. `awaits`: so many threads have still to come as `awaited` tells. From the first
       call for a request until it is closed, or a call throws, polls in line go the slow way. */
    enum class Next { closed, run, at_safepoint, awaits };
    Next advance() {
        std::int64_t answer;
        hint_.set(true);
        SP_WAIT(answer, sp_advance(&party_));
        sp_ring();
        kind_ = answer == SP_AT_SAFEPOINT ? SP_CENSUS : SP_HANDSHAKE;
        if (answer == SP_RUN) return Next::run;
        if (answer == SP_AT_SAFEPOINT) return Next::at_safepoint;
        if (answer == SP_AWAITS) return Next::awaits;
        ended(answer);
        return Next::closed;
    }
    sp_served called() {
        return {must(sp_called_operation(&party_)),
                static_cast<std::size_t>(must(sp_called_place(&party_))), nullptr, kind_};
    }
    std::uint64_t awaited() { return must(sp_awaited(&party_)); }
    std::uint64_t counted(std::uint64_t serial) { return must(sp_counted(&party_, serial)); }

    enum class Code { freed, used, late };
    Code reclaim(std::uint64_t serial, Callback callback = {}) {
        std::int64_t answer = sp_reclaim(&party_, serial, at_safe_point, &callback);
        hint_.set(false);
        if (answer == SP_LATE) return Code::late;
        return must(answer) ? Code::used : Code::freed;
    }

private:
    std::uint64_t ended(std::int64_t answer) {
        hint_.set(false);
        return must(answer);
    }

    SharedSystem shared_;
    int kind_ = SP_HANDSHAKE; /* of what `called` tells */
    Hint hint_{false};        /* on from the first `advance` for a request to the last */
};

/* The thread that makes it, as long as it stands: it starts, once no census is open, serves what it is
   told with its callback, and exits. It isn't passed on. Its scopes end also where an exception leaves them: the
   stop that this needs is served, and then the exception goes on. */
class Thread {
public:
    /* If the start is refused, the party stays the caller's, who may try again. */
    Thread(Party &&party, Callback callback = {})
        : callback_(std::move(callback)),
          name_(must(sp_start_thread(party.get(), at_safe_point, &callback_))),
          party_(std::move(party)) {}
    Thread(const Thread &) = delete;
    Thread &operator=(const Thread &) = delete;
    ~Thread() { end(); }

    /* Exits before its end, and gives its party back, which may start again as another Thread. */
    Party exit() {
        must(end());
        return std::move(party_);
    }

    std::uint64_t name() const noexcept { return name_; }
    /* The place by which a callback for a held thread names it. */
    std::size_t place() { return static_cast<std::size_t>(must(sp_place(get()))); }
    /* To ask with: a running thread may ask what any party may. */
    Party &party() noexcept { return party_; }
    /* A poll in line. */
    void poll() { polled(sp_poll(get())); }
    /* The word that machine code of this thread tests: 0 to go on, else it calls `back_edge`. */
    const std::uint32_t *poll_word() noexcept { return sp_poll_word(get()); }
    void back_edge() { polled(sp_back_edge(get())); }
    void publish() { must(sp_publish(get())); }

    /* For machine code and interpreters, whose frames are no scopes. `enter` returns the serial of
       the code to run, or 0; `leave` leaves the top frame, and polls. */
    std::uint64_t enter(std::uint32_t method) { return must(sp_call(get(), method)); }
    void leave() { polled(sp_ret(get())); }
    /* How many frames the stack has. */
    std::size_t depth() { return static_cast<std::size_t>(must(sp_depth(get()))); }
    /* Leaves frames, the top one first, until there are at most so many. */
    void unwind_to(std::size_t depth) {
        must(sp_unwind_thread(get(), depth, at_safe_point, &callback_));
    }

    /* For coroutines, each of which has a Thread of its own on one thread of the host. `suspend` puts
       this one into native code until a `switch_to` brings it back. `switch_to` puts this one into native
       code and brings the other back, which serves what stops it. A Thread that ends comes back first. */
    void suspend() { must(sp_enter_native(get())); }
    void switch_to(Thread &other) {
        must(sp_switch(get(), other.get(), at_safe_point, &other.callback_));
    }
    void resume() { must(sp_leave_native(get(), at_safe_point, &callback_)); }

    /* A frame of a method, from the call to the return: the serial of its code, 0 where it is
       interpreted. */
    class Frame {
    public:
        Frame(Thread &thread, std::uint32_t method)
            : thread_(thread), serial_(must(sp_call(thread.get(), method))) {}
        Frame(const Frame &) = delete;
        Frame &operator=(const Frame &) = delete;
        ~Frame() { thread_.stop_if(sp_ret(thread_.get())); }
        std::uint64_t serial() const noexcept { return serial_; }

    private:
        Thread &thread_;
        std::uint64_t serial_;
    };

    /* A frame as Frame, around machine code that enters further frames. Its end leaves these too, where
       an exception or a jump has left the machine code. */
    class Call {
    public:
        Call(Thread &thread, std::uint32_t method)
            : thread_(thread), depth_(thread.depth()), serial_(thread.enter(method)) {}
        Call(const Call &) = delete;
        Call &operator=(const Call &) = delete;
        ~Call() { sp_unwind_thread(thread_.get(), depth_, at_safe_point, &thread_.callback_); }
        std::uint64_t serial() const noexcept { return serial_; }

    private:
        Thread &thread_;
        std::size_t depth_;
        std::uint64_t serial_;
    };

    /* In native code, from here to the end of its scope. */
    class Native {
    public:
        explicit Native(Thread &thread) : thread_(thread) { must(sp_enter_native(thread.get())); }
        Native(const Native &) = delete;
        Native &operator=(const Native &) = delete;
        ~Native() { sp_leave_native(thread_.get(), at_safe_point, &thread_.callback_); }

    private:
        Thread &thread_;
    };

    /* In the VM, from here to the end of its scope: the thread doesn't poll. */
    class Vm {
    public:
        explicit Vm(Thread &thread) : thread_(thread) { must(sp_to_vm(thread.get())); }
        Vm(const Vm &) = delete;
        Vm &operator=(const Vm &) = delete;
        ~Vm() { thread_.stop_if(sp_from_vm(thread_.get())); }

    private:
        Thread &thread_;
    };

    /* Blocked in the VM, from here to the end of its scope: a wait inside the runtime. */
    class Blocked {
    public:
        explicit Blocked(Thread &thread) : vm_(thread), thread_(thread) {
            must(sp_enter_blocked(thread.get()));
        }
        Blocked(const Blocked &) = delete;
        Blocked &operator=(const Blocked &) = delete;
        ~Blocked() { sp_leave_blocked(thread_.get(), at_safe_point, &thread_.callback_); }

    private:
        Vm vm_;
        Thread &thread_;
    };

private:
    sp_party *get() noexcept { return party_.get(); }
    std::int64_t end() noexcept {
        bring_back();
        sp_unwind_thread(get(), 0, at_safe_point, &callback_);
        return sp_exit_thread(get(), at_safe_point, &callback_);
    }
    void polled(std::int64_t answer) {
        if (must(answer)) must(sp_stop(get(), at_safe_point, &callback_));
    }
    void stop_if(std::int64_t polled) noexcept {
        if (polled > 0) sp_stop(get(), at_safe_point, &callback_);
    }
    void bring_back() noexcept {
        if (sp_state(get()) == SP_AT_POLL) sp_stop(get(), at_safe_point, &callback_);
        if (sp_state(get()) == SP_IN_NATIVE) sp_leave_native(get(), at_safe_point, &callback_);
        if (sp_state(get()) == SP_BLOCKED) sp_leave_blocked(get(), at_safe_point, &callback_);
        if (sp_state(get()) == SP_IN_VM) stop_if(sp_from_vm(get()));
    }

    Callback callback_;
    std::uint64_t name_;
    Party party_;
};

} // namespace safepoint

#endif
