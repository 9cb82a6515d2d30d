// Keeps the last 40 readings, one a line, as records on a heap, and prints them at the end.
#include <algorithm>
#include <cstdint>
#include <cstdlib>
#include <iostream>
#include <rtheap.hpp>

namespace {

constexpr std::uint64_t kept = 40;
enum reg : std::uint32_t { array, record, number };

// Ends the program if a call was refused or failed.
void must(const control_heap::outcome &done) {
    if (done) return;
    std::cerr << "plant: " << done.text() << '\n';
    std::exit(4);
}

void keep(control_heap::heap &heap, std::uint64_t place, std::uint32_t reading) {
    must(heap.record(record, 1));
    must(heap.set(number, reading));
    must(heap.put(record, 0, number));
    must(heap.put(array, place, record));
}

std::uint64_t reading_at(control_heap::heap &heap, std::uint64_t place) {
    must(heap.get(record, array, place));
    const auto reading = heap.get(number, record, 0);
    must(reading);
    return reading.value().number;
}

} // namespace

int main() {
    control_heap::heap heap;
    // At most 50 blocks are live: 3 of registers, 6 of the array, 40 readings and the next one.
    control_heap::config config{128, 50};
    config.shared = kept;
    must(heap.open(config));
    std::uint64_t count = 0;
    std::uint32_t reading;
    while (std::cin >> reading) keep(heap, count++ % kept, reading);
    if (!std::cin.eof()) {
        std::cerr << "plant: line " << count + 1 << " is no number\n";
        return 3;
    }
    for (std::uint64_t i = count - std::min(count, kept); i < count; i++)
        std::cout << reading_at(heap, i % kept) << '\n';
}
