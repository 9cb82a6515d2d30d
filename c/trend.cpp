// Keeps the last 40 readings in a linked list on the heap, the newest first, and prints what the
// proved program `historian` prints. It reads two limits from the first line and a reading from
// each further line, and writes a line after each reading. Readings that the list drops are
// garbage.
#include <algorithm>
#include <cstdint>
#include <cstdlib>
#include <iostream>
#include <limits>
#include <utility>

#include "rtheap.hpp"

namespace {

constexpr std::uint64_t kept = 40;

enum field : std::uint32_t { reading, alarm, next, fields };
enum reg : std::uint32_t { list = 1, record, number, at, nothing };

// Ends the program if a command was not done.
void must(const control_heap::outcome &done) {
    if (done) return;
    std::cerr << "trend: " << done.text() << '\n';
    std::exit(9);
}

std::uint64_t number_of(const control_heap::result<rtheap_value> &got) {
    must(got);
    return got.value().number;
}

class trend {
public:
    trend(control_heap::heap heap, std::uint64_t low, std::uint64_t high)
        : heap_(std::move(heap)), low_(low), high_(high) {}

    void add(std::uint64_t value) {
        must(heap_.record(record, fields));
        store(reading, value);
        store(alarm, value < low_ || high_ < value);
        must(heap_.put(record, next, list));
        must(heap_.mov(list, record));
    }

    // Prints the figures of the list, and drops what comes after the last reading to be kept.
    void report() {
        std::uint64_t least = std::numeric_limits<std::uint32_t>::max();
        std::uint64_t greatest = 0, total = 0, alarms = 0, count = 0;
        must(heap_.mov(at, list));
        bool more = true;
        while (more) {
            const std::uint64_t value = number_of(heap_.get(number, at, reading));
            least = std::min(least, value);
            greatest = std::max(greatest, value);
            total += value;
            alarms += number_of(heap_.get(number, at, alarm));
            if (++count == kept) must(heap_.put(at, next, nothing));
            const auto rest = heap_.get(at, at, next);
            must(rest);
            more = rest.value().kind == RTHEAP_REF;
        }
        std::cout << "least " << least << " greatest " << greatest << " mean " << total / count
                  << " alarms " << alarms << '\n';
    }

private:
    void store(field at_field, std::uint64_t value) {
        must(heap_.set(number, value));
        must(heap_.put(record, at_field, number));
    }

    control_heap::heap heap_;
    std::uint64_t low_, high_;
};

} // namespace

int main() {
    control_heap::heap heap;
    must(heap.open({512, 128}));
    std::uint64_t low, high, value;
    if (!(std::cin >> low >> high)) return 3;
    trend last(std::move(heap), low, high);
    while (std::cin >> value) {
        last.add(value);
        last.report();
    }
    return 0;
}
