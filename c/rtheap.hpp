// rtheap.hpp: the heaps of rtheap.h and rtheap_shared.h for C++17 and later. Link with librtheap.
//
//     control_heap::heap heap; // closed; it closes itself, moves, and never copies
//     if (auto opened = heap.open({512, 128}); !opened) return fail(opened.text());
//     if (auto made = heap.record(1, 2); !made) ... made.status() == RTHEAP_ERR_FULL ...
//     if (auto got = heap.get(2, 1, 0)) use(got.value().number);
//     if (auto same = heap.same(1, 2); same.ok() && same.value()) ...
//
// A call returns an outcome, or a result, which has a value as well if the call succeeded. Both are
// [[nodiscard]], and true if the call succeeded; a result that is a yes or no is not true or false
// itself, so that a no is not taken for a yes. Nothing throws, and only open() and attach()
// allocate. What rtheap.h demands of a program holds here too. A group or worker has one thread at
// a time.
#ifndef RTHEAP_HPP
#define RTHEAP_HPP

#include <cstddef>
#include <cstdint>
#include <exception>
#include <initializer_list>

#include "rtheap_shared.h"

namespace control_heap {

// Whether a call succeeded, and if not, why.
class [[nodiscard]] outcome {
public:
    outcome(rtheap_status status) noexcept : status_(status) {}
    explicit operator bool() const noexcept { return ok(); }
    [[nodiscard]] bool ok() const noexcept { return status_ == RTHEAP_OK; }
    [[nodiscard]] rtheap_status status() const noexcept { return status_; }
    [[nodiscard]] const char *text() const noexcept { return rtheap_status_text(status_); }
    [[nodiscard]] const char *name() const noexcept { return rtheap_status_name(status_); }

private:
    rtheap_status status_;
};

// The outcome of a call that returns a value.
template <class T> class [[nodiscard]] result : public outcome {
public:
    result(rtheap_status status, T value) noexcept : outcome(status), value_(value) {}

    // The value. Ask first whether there is one: without one, this terminates the program.
    [[nodiscard]] T value() const noexcept {
        if (!ok()) std::terminate();
        return value_;
    }
    [[nodiscard]] T value_or(T other) const noexcept { return ok() ? value_ : other; }

private:
    T value_;
};

// A yes or no. It does not convert to bool: `ok()` says whether there is one, `value()` which.
template <> class [[nodiscard]] result<bool> : public outcome {
public:
    result(rtheap_status status, bool value) noexcept : outcome(status), value_(value) {}
    explicit operator bool() const = delete;
    bool operator!() const = delete;

    [[nodiscard]] bool value() const noexcept {
        if (!ok()) std::terminate();
        return value_;
    }
    [[nodiscard]] bool value_or(bool other) const noexcept { return ok() ? value_ : other; }

private:
    bool value_;
};

// What a heap is opened with, as rtheap_config.
struct config {
    std::uint32_t blocks;
    std::uint32_t live;
    std::uint32_t object = 1;
    std::uint32_t shared = 0;
    std::uint32_t width = 8;
    std::uint32_t threads = 1;

    [[nodiscard]] rtheap_config c() const noexcept {
        return {sizeof(rtheap_config), width, threads, blocks, live, object, shared};
    }
};

// Calls a function that writes a value.
template <class T, class Call> [[nodiscard]] result<T> told(Call call) noexcept {
    T value{};
    const rtheap_status status = call(&value);
    return {status, value};
}

// Handles of one kind: they close themselves and move.
template <class C, rtheap_status (*Close)(C *), rtheap_status (*Move)(C *, C *)> class handle {
public:
    handle() noexcept : c_() {}
    handle(handle &&other) noexcept : c_() { take(other); }
    handle &operator=(handle &&other) noexcept {
        if (this != &other) {
            static_cast<void>(close());
            take(other);
        }
        return *this;
    }
    handle(const handle &) = delete;
    handle &operator=(const handle &) = delete;
    ~handle() { static_cast<void>(close()); }

    // The handle of C, for calls that this header lacks.
    [[nodiscard]] C *c() noexcept { return &c_; }
    [[nodiscard]] const C *c() const noexcept { return &c_; }

protected:
    outcome close() noexcept { return Close(&c_); }

private:
    void take(handle &other) noexcept { static_cast<void>(outcome(Move(&c_, &other.c_))); }

    C c_;
};

// A heap of one thread, open or closed. Each call but open() is refused by a closed one.
class heap : public handle<::rtheap, rtheap_close, rtheap_move> {
public:
    outcome open(const config &c) noexcept {
        const rtheap_config given = c.c();
        return rtheap_open(this->c(), &given);
    }
    // In memory that the program lends until the heap is closed.
    outcome open_in(const config &c, void *memory, std::size_t bytes) noexcept {
        const rtheap_config given = c.c();
        return rtheap_open_in(this->c(), &given, memory, bytes);
    }
    using handle::close;

    [[nodiscard]] result<rtheap_statistics> statistics() const noexcept {
        return told<rtheap_statistics>(
            [&](auto *s) { return rtheap_read_statistics(c(), s, sizeof *s); });
    }
    [[nodiscard]] result<rtheap_error> last_error() const noexcept {
        return told<rtheap_error>([&](auto *e) { return rtheap_last_error(c(), e, sizeof *e); });
    }

    // Reads without a command: a field, and along a path of indices.
    [[nodiscard]] result<rtheap_value> peek(std::uint32_t s, std::uint64_t i) const noexcept {
        return told<rtheap_value>([&](auto *value) { return rtheap_peek(c(), s, i, value); });
    }
    [[nodiscard]] result<rtheap_value>
    peek_path(std::uint32_t s, std::initializer_list<std::uint64_t> path) const noexcept {
        return peek_path(s, path.begin(), path.size());
    }
    [[nodiscard]] result<rtheap_value> peek_path(std::uint32_t s, const std::uint64_t *path,
                                                 std::size_t count) const noexcept {
        return told<rtheap_value>(
            [&](auto *value) { return rtheap_peek_path(c(), s, path, count, value); });
    }

    // The graph as a text, or as a drawing for Graphviz, in `size` bytes with the zero at the end.
    // Each returns how many there are without it; text_size() says how many that would be.
    [[nodiscard]] result<std::size_t> text_size() const noexcept {
        return sized(rtheap_graph_text);
    }
    [[nodiscard]] result<std::size_t> dot_size() const noexcept { return sized(rtheap_graph_dot); }
    result<std::size_t> text(char *to, std::size_t size) const noexcept {
        return told<std::size_t>([&](auto *n) { return rtheap_graph_text(c(), to, size, n); });
    }
    result<std::size_t> dot(char *to, std::size_t size) const noexcept {
        return told<std::size_t>([&](auto *n) { return rtheap_graph_dot(c(), to, size, n); });
    }

    // Saves the heap as bytes, and returns how many there are; opens a heap from such bytes.
    [[nodiscard]] result<std::size_t> save_size() const noexcept { return sized(rtheap_save); }
    result<std::size_t> save(void *to, std::size_t size) const noexcept {
        return told<std::size_t>([&](auto *n) { return rtheap_save(c(), to, size, n); });
    }
    outcome load(const config &c, const void *bytes, std::size_t size) noexcept {
        const rtheap_config given = c.c();
        return rtheap_load(this->c(), &given, bytes, size);
    }

    // The commands of rtheap.h.
    outcome record(std::uint32_t d, std::uint32_t fields) noexcept {
        return rtheap_record(c(), d, fields);
    }
    outcome array(std::uint32_t d, std::uint32_t elements) noexcept {
        return rtheap_array(c(), d, elements);
    }
    outcome set(std::uint32_t d, std::uint64_t value) noexcept { return rtheap_set(c(), d, value); }
    outcome nil(std::uint32_t d) noexcept { return rtheap_nil(c(), d); }
    outcome mov(std::uint32_t d, std::uint32_t s) noexcept { return rtheap_mov(c(), d, s); }
    outcome put(std::uint32_t s, std::uint64_t i, std::uint32_t v) noexcept {
        return rtheap_put(c(), s, i, v);
    }
    outcome idle(std::uint64_t units) noexcept { return rtheap_idle(c(), units); }

    result<rtheap_value> get(std::uint32_t d, std::uint32_t s, std::uint64_t i) noexcept {
        return told<rtheap_value>([&](auto *value) { return rtheap_get(c(), d, s, i, value); });
    }
    result<rtheap_value> say(std::uint32_t s) noexcept {
        return told<rtheap_value>([&](auto *value) { return rtheap_say(c(), s, value); });
    }
    result<rtheap_value> swap(std::uint32_t s, std::uint64_t i, std::uint32_t v) noexcept {
        return told<rtheap_value>([&](auto *old) { return rtheap_swap(c(), s, i, v, old); });
    }
    result<std::uint64_t> len(std::uint32_t s) noexcept {
        return told<std::uint64_t>([&](auto *length) { return rtheap_len(c(), s, length); });
    }
    result<bool> same(std::uint32_t a, std::uint32_t b) noexcept {
        return told<bool>([&](bool *same) { return rtheap_same(c(), a, b, same); });
    }
    result<bool> cas(std::uint32_t s, std::uint64_t i, std::uint32_t a, std::uint32_t v) noexcept {
        return told<bool>([&](bool *stored) { return rtheap_cas(c(), s, i, a, v, stored); });
    }
    // A command as a value; the reply is whole.
    result<rtheap_reply> ask(const rtheap_command &command) noexcept {
        return told<rtheap_reply>([&](auto *reply) { return rtheap_ask(c(), command, reply); });
    }

private:
    // How many bytes a call would write.
    template <class Write> [[nodiscard]] result<std::size_t> sized(Write write) const noexcept {
        std::size_t length = 0;
        const rtheap_status status = write(c(), nullptr, 0, &length);
        return {status == RTHEAP_ERR_TOO_SMALL ? RTHEAP_OK : status, length};
    }
};

// A worker of a shared heap, for one thread. Its destructor closes it, unless its command is not
// done: then the worker is lost, and the heap stays. So poll each command to its end.
class worker : public handle<rtheap_worker, rtheap_worker_close, rtheap_worker_move> {
public:
    using handle::close;

    [[nodiscard]] result<std::uint32_t> thread() const noexcept {
        return told<std::uint32_t>([&](auto *t) { return rtheap_worker_thread(c(), t); });
    }
    outcome start(const rtheap_command &command) noexcept {
        return rtheap_worker_start(c(), command);
    }
    result<rtheap_reply> poll(std::uint64_t most) noexcept {
        return told<rtheap_reply>([&](auto *r) { return rtheap_worker_poll(c(), most, r); });
    }
    // Starts a command and polls it to its end; calls `wait` between two polls.
    template <class Wait> result<rtheap_reply> ask(const rtheap_command &command, Wait wait) {
        rtheap_reply reply{};
        rtheap_status status = rtheap_worker_start(c(), command);
        if (status != RTHEAP_OK) return {status, reply};
        while ((status = rtheap_worker_poll(c(), 64, &reply)) == RTHEAP_NOT_DONE) wait();
        return {status, reply};
    }
    result<std::uint64_t> stamp() noexcept {
        return told<std::uint64_t>([&](auto *stamp) { return rtheap_worker_stamp(c(), stamp); });
    }
    outcome follow(std::uint64_t stamp) noexcept { return rtheap_worker_follow(c(), stamp); }
};

// The workers of a shared heap that nobody has.
class group : public handle<rtheap_group, rtheap_group_close, rtheap_group_move> {
public:
    outcome open(const config &c) noexcept {
        const rtheap_config given = c.c();
        return rtheap_group_open(this->c(), &given);
    }
    using handle::close;

    outcome attach(worker &to) noexcept { return rtheap_group_attach(c(), to.c()); }
    outcome give_back(worker &from) noexcept { return rtheap_group_return(c(), from.c()); }
    // Closes the heap with the workers that are here, and returns how many cycles were started.
    result<std::uint64_t> finish() noexcept {
        return told<std::uint64_t>([&](auto *cycles) { return rtheap_group_finish(c(), cycles); });
    }
};

} // namespace control_heap

#endif
