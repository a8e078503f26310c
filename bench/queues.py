#!/usr/bin/env python3
"""Measures hold operations on the queues of messages that wait: take the first entry, insert it again
a random time later.

queues.py [--sizes N,..] [--repetitions N] [--seconds S]

The program queue_holds does it on the ring of kit_queue and on the calendar of kit_calendar, a C++
program that is written and compiled here (CXX, or c++ with -O2) on std::priority_queue, with the
same numbers drawn. All three must print the same sum of the times taken. Each is run with no
operations and with as many as take about S seconds, in turns; the median processor times are
subtracted. Printed are the nanoseconds an operation of std::priority_queue, and the ratio of each
queue to it.

The program must have been built: `rt run -- ring uniform 16 0` in crates/queue_holds does that. What
else runs on the machine changes the figures: its load is printed at both ends."""
import argparse
import os
import resource
import statistics
import subprocess
import sys
import tempfile

TOP = os.path.dirname(os.path.dirname(os.path.abspath(__file__)))
HOLDS = os.path.join(TOP, "crates", "queue_holds", "out", "queue_holds")
SPREADS = ["uniform", "exponential", "bimodal"]
SIZES = [16, 64, 256, 1024, 4096, 16384]
FEW = 1000
HEAP = r"""
#include <cstdint>
#include <cstdio>
#include <cstdlib>
#include <cstring>
#include <optional>
#include <queue>
#include <tuple>
#include <vector>

struct Message { uint64_t time; uint8_t sender; uint16_t number; uint8_t kind; uint8_t group; uint32_t value; };
struct Entry { Message message; std::optional<uint16_t> buffer; };
struct Later {
    static auto key(const Entry& e) { return std::make_tuple(e.message.time, e.message.sender, e.message.number); }
    bool operator()(const Entry& a, const Entry& b) const { return key(b) < key(a); }
};

static uint64_t state = 88172645463325252u;
static uint64_t draw() { state ^= state << 13; state ^= state >> 7; state ^= state << 17; return state; }

static uint64_t increment(char spread, uint64_t drawn) {
    uint64_t high = drawn >> 32;
    switch (spread) {
    case 'u': return high % 2000000;
    case 'e': return uint64_t(drawn ? __builtin_ctzll(drawn) : 64) * 666667 + high % 666667;
    default: return high % 200000 + (drawn % 10 == 0 ? 9000000 : 0);
    }
}

int main(int, char** words) {
    char spread = words[1][0];
    int entries = atoi(words[2]);
    uint64_t holds = strtoull(words[3], nullptr, 10);
    std::vector<Entry> room;
    room.reserve(entries + 1);
    std::priority_queue<Entry, std::vector<Entry>, Later> queue(Later(), std::move(room));
    for (int number = 0; number < entries; number++)
        queue.push(Entry{Message{increment(spread, draw()), 0, uint16_t(number), 0, 0, 0}, std::nullopt});
    uint64_t sum = 0;
    for (uint64_t turn = 0; turn < holds; turn++) {
        uint64_t drawn = draw();
        if (queue.empty()) continue;
        Entry first = queue.top();
        queue.pop();
        sum += first.message.time;
        first.message.time += increment(spread, drawn);
        queue.push(first);
    }
    printf("%llu\n", (unsigned long long)sum);
}
"""


def run(words):
    """The processor seconds of a run, and what it wrote."""
    before = resource.getrusage(resource.RUSAGE_CHILDREN)
    made = subprocess.run(words, stdout=subprocess.PIPE, check=True)
    after = resource.getrusage(resource.RUSAGE_CHILDREN)
    return after.ru_utime - before.ru_utime + after.ru_stime - before.ru_stime, made.stdout


def holds_within(words, seconds):
    """How many operations take about so many seconds."""
    empty = run(words + ["0"])[0]
    count = FEW
    while True:
        took = run(words + [str(count)])[0] - empty
        if took > max(seconds / 8, empty / 2):
            return max(FEW, int(count * seconds / took))
        count *= 4


def nanoseconds(words, holds, repetitions):
    empty, full = [], []
    for _turn in range(repetitions):
        empty.append(run(words + ["0"])[0])
        full.append(run(words + [str(holds)])[0])
    return (statistics.median(full) - statistics.median(empty)) / holds * 1e9


def compiled(folder):
    source, program = os.path.join(folder, "heap.cpp"), os.path.join(folder, "heap")
    with open(source, "w") as out:
        out.write(HEAP)
    subprocess.run([os.environ.get("CXX", "c++"), "-std=c++17", "-O2", "-o", program, source], check=True)
    return program


def main():
    parser = argparse.ArgumentParser(usage=__doc__)
    parser.add_argument("--sizes", default=",".join(map(str, SIZES)))
    parser.add_argument("--repetitions", type=int, default=3)
    parser.add_argument("--seconds", type=float, default=0.3)
    args = parser.parse_args()
    if not os.path.exists(HOLDS):
        sys.exit("build the program first: rt run -- ring uniform 16 0, in crates/queue_holds")
    print("load at the start: %.1f %.1f %.1f" % os.getloadavg())
    with tempfile.TemporaryDirectory() as folder:
        heap = compiled(folder)
        for spread in SPREADS:
            for size in args.sizes.split(","):
                programs = [[heap, spread, size], [HOLDS, "ring", spread, size], [HOLDS, "calendar", spread, size]]
                sums = {run(words + [str(FEW)])[1] for words in programs}
                if len(sums) != 1:
                    sys.exit("the queues differ at %s, %s entries: %r" % (spread, size, sums))
                took = [nanoseconds(words, holds_within(words, args.seconds), args.repetitions) for words in programs]
                print("%-11s %5s entries: heap %7.1f ns, ring x %6.2f, calendar x %6.2f"
                      % (spread, size, took[0], took[1] / took[0], took[2] / took[0]), flush=True)
    print("load at the end: %.1f %.1f %.1f" % os.getloadavg())


if __name__ == "__main__":
    main()
