// Tests rtheap.hpp: that a heap moves and closes itself, and what its calls return. Prints nothing
// if all is well. The commands themselves are tested in C (refusals.c).
#include <cstdint>
#include <iostream>
#include <string>
#include <type_traits>
#include <utility>

#include "rtheap.hpp"

using control_heap::heap;

static_assert(!std::is_copy_constructible_v<heap> && !std::is_copy_assignable_v<heap>);
static_assert(!std::is_constructible_v<bool, control_heap::result<bool>>);
static_assert(std::is_nothrow_move_constructible_v<heap>);
static_assert(std::is_nothrow_move_assignable_v<heap>);

namespace {

int wrong = 0;

void check(bool holds, const char *what) {
    if (holds) return;
    std::cout << what << '\n';
    wrong = 1;
}

void moves() {
    heap first, second;
    check(first.statistics().status() == RTHEAP_ERR_CLOSED &&
              first.set(1, 7).status() == RTHEAP_ERR_CLOSED, "closed at first");
    check(bool(first.open({64, 20, 1, 4})), "open");
    check(first.open({64, 20}).status() == RTHEAP_ERR_OPEN, "open again");
    check(bool(first.set(1, 7)), "set");
    heap moved(std::move(first));
    check(moved.statistics().value().commands == 1, "moved");
    check(bool(second.open({64, 20})), "open second");
    second = std::move(moved);
    check(second.say(1).value().number == 7, "moved by assignment");
    check(second.close().ok(), "close");
    check(second.nil(1).status() == RTHEAP_ERR_CLOSED, "closed");
    check(bool(second.open({64, 20, 1, 0, 4})), "open anew");
    check(second.idle(1).status() == RTHEAP_ERR_BOUNDS, "width 4");
}

void returns() {
    heap h;
    check(h.open({64, 64}).status() == RTHEAP_ERR_RATE, "no rate");
    check(bool(h.open({64, 20, 1, 4})), "open");
    check(h.record(1, 2) && h.array(2, 3) && h.put(1, 1, 2) && h.mov(3, 1), "made");
    check(h.len(3).value() == 2, "len");
    check(h.get(4, 3, 1).value().kind == RTHEAP_REF, "get");
    check(h.same(4, 2).value() && !h.same(4, 1).value(), "same");
    check(h.cas(3, 1, 4, 5).value() && !h.cas(3, 1, 4, 5).value(), "cas");
    check(h.swap(3, 1, 4).value().kind == RTHEAP_NIL, "swap");
    const heap &seen = h;
    check(seen.peek(3, 1).value().kind == RTHEAP_REF, "peek");
    check(seen.peek_path(3, {1, 2}).value().kind == RTHEAP_NIL, "peek along a path");
    check(seen.peek_path(3, {1, 3}).status() == RTHEAP_ERR_RANGE, "a path that goes too far");
    check(h.idle(10) && h.nil(1), "idle");
    const rtheap_statistics s = h.statistics().value();
    check(s.units > 0 && s.units + s.units_left == std::uint64_t(1) << 45, "units");
    check(s.objects == 2 && s.objects_left == (std::uint64_t(1) << 43) - 3, "objects");
    const auto none = h.len(1);
    check(!none && none.status() == RTHEAP_ERR_NIL && none.value_or(9) == 9, "no value");
    check(none.text() == std::string(rtheap_status_text(RTHEAP_ERR_NIL)) &&
              none.name() == std::string("RTHEAP_ERR_NIL"), "text");
}

void tells() {
    heap h;
    check(h.open({20, 20}).name() == std::string("RTHEAP_ERR_RATE"), "rate");
    const rtheap_error e = h.last_error().value();
    check(e.argument == std::string("blocks") && e.least == 24, "which argument, and the least");
    static std::uint64_t memory[RTHEAP_WORDS(8, 64, 1)];
    check(h.open_in({64, 20}, memory, 8).status() == RTHEAP_ERR_TOO_SMALL, "too small");
    check(bool(h.open_in({64, 20}, memory, sizeof memory)), "open in lent memory");
    const auto made = h.ask(rtheap_cmd_record(1, 2));
    check(made.value().kind == RTHEAP_REPLY_NEW && made.value().value == 1, "a whole reply");
    const rtheap copy = *h.c();
    check(rtheap_asked(&copy, nullptr) == RTHEAP_ERR_MOVED, "a copy");
}

void shares() {
    control_heap::group group, other;
    control_heap::config two{512, 128};
    two.threads = 2;
    two.shared = 4;
    check(group.open(two).ok() && other.open(two).ok(), "open groups");
    control_heap::worker first, second;
    check(group.attach(first).ok() && group.attach(second).ok(), "attach");
    check(group.attach(first).status() == RTHEAP_ERR_OPEN, "attach again");
    const auto nothing = [] {};
    check(first.ask(rtheap_cmd_set(1, 5), nothing).ok(), "set");
    check(first.ask(rtheap_cmd_put(0, 3, 1), nothing).ok(), "put");
    check(second.follow(first.stamp().value()).ok(), "stamp");
    check(second.ask(rtheap_cmd_get(1, 0, 3), nothing).value().value == 5, "get");
    control_heap::worker moved(std::move(second));
    check(moved.thread().value() == 1, "thread");
    check(second.start(rtheap_cmd_nil(1)).status() == RTHEAP_ERR_CLOSED, "moved from");
    check(moved.start(rtheap_cmd_nil(1)).ok(), "start");
    check(group.give_back(moved).status() == RTHEAP_ERR_BUSY, "busy");
    while (moved.poll(8).status() == RTHEAP_NOT_DONE) {}
    check(other.give_back(moved).status() == RTHEAP_ERR_WRONG_GROUP, "another group");
    check(group.give_back(moved).ok() && group.give_back(first).ok(), "give back");
    check(group.finish().ok(), "finish");
}

void saves() {
    heap h, loaded;
    check(h.save_size().status() == RTHEAP_ERR_CLOSED, "closed");
    check(bool(h.open({64, 20, 1, 4})), "open");
    check(h.record(1, 2) && h.set(2, 1250) && h.put(1, 1, 2) && h.put(0, 3, 1), "made");
    std::string text(h.text_size().value(), ' ');
    check(h.text(text.data(), text.size()).status() == RTHEAP_ERR_TOO_SMALL, "no zero");
    check(h.text(text.data(), text.size() + 1).value() == text.size(), "text");
    check(text.find("1: record 2 [nil, 1250]\n") != std::string::npos, "a line of it");
    std::string dot(h.dot_size().value(), ' ');
    check(h.dot(dot.data(), dot.size() + 1).value() == dot.size(), "drawing");
    std::string bytes(h.save_size().value(), ' ');
    check(h.save(bytes.data(), bytes.size()).value() == bytes.size(), "save");
    check(loaded.load({64, 20}, bytes.data(), bytes.size() - 1).status() == RTHEAP_ERR_TORN,
          "torn");
    check(bool(loaded.load({64, 20}, bytes.data(), bytes.size())), "load");
    check(loaded.peek_path(0, {3, 1}).value().number == 1250, "the same");
}

} // namespace

int main() {
    moves();
    returns();
    tells();
    saves();
    shares();
    return wrong;
}
