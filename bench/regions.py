#!/usr/bin/env python3
"""Measures what regions cost `rtik oracle`, and reading a file of many regions.

regions.py [--repetitions N]

A federation of version 3 is run beside its twin of version 2, whose groups are the
regions with the federates that they reach: 16 federates that send to 32 regions of
one group, to which there are 256 subscriptions. Printed are the median processor
seconds of N runs of `oracle` for each, taken in turns, and their ratio; the texts
must be the same. Then, for a file without rules: the seconds of `regions` for the
version 3 file and of `check` for the twin, a thousand runs each. The first reads,
matches twice and writes; the second reads a smaller file.

The program must have been built: ./rtik at the top does that."""
import argparse
import json
import os
import statistics
import sys
import tempfile

from oracle import RTIK, federate, run

NAMES = ["f%d" % i for i in range(16)]
REGIONS = [(7 * k % 300, 7 * k % 300 + 12) for k in range(32)]
SUBSCRIPTIONS = [(j % 16, 5 * j % 310, 5 * j % 310 + 9) for j in range(256)]


def members(region):
    """Who has a subscription that overlaps a region."""
    low, high = region
    reached = {f for f, first, end in SUBSCRIPTIONS if first < high and low < end}
    return [NAMES[f] for f in sorted(reached)]


def federates(rules, on):
    """16 federates that send to two regions each and count what comes."""
    made = []
    for i, name in enumerate(NAMES):
        do = [{"send": "r%d" % (2 * i + k), "delay": 3, "value": "$now"} for k in range(2)]
        own = [{"on": "grant", "do": do}] + [
            {"on": {"got": group}, "do": [{"add": "sum", "by": "$value"}]} for group in on
        ]
        made.append(federate(name, 3, {"tar": 3}, ("sum",), own if rules else ()))
    return made


def regional(end, rules):
    subscribers = [{"federate": NAMES[f], "from": first, "to": last} for f, first, last in SUBSCRIPTIONS]
    regions = [
        {"name": "r%d" % k, "group": "map", "from": low, "to": high}
        for k, (low, high) in enumerate(REGIONS)
    ]
    return {
        "version": 3, "end": end, "buffers": 64, "groups": [{"name": "map", "subscribers": subscribers}],
        "regions": regions, "federates": federates(rules, ["map"]),
    }


def twin(end, rules):
    groups = [{"name": "r%d" % k, "members": members(region)} for k, region in enumerate(REGIONS)]
    return {
        "version": 2, "end": end, "buffers": 64, "groups": groups,
        "federates": federates(rules, ["r%d" % k for k in range(32)]),
    }


def write(folder, name, made):
    path = os.path.join(folder, name)
    with open(path, "w") as file:
        json.dump(made, file)
    return path


def main():
    parser = argparse.ArgumentParser(usage=__doc__)
    parser.add_argument("--repetitions", type=int, default=9)
    args = parser.parse_args()
    if not os.path.exists(RTIK):
        sys.exit("build the program first: ./rtik")
    with tempfile.TemporaryDirectory() as folder:
        paths = [write(folder, "3.json", regional(12000, True)), write(folder, "2.json", twin(12000, True))]
        seconds = [[], []]
        texts = [b"", b""]
        for _ in range(args.repetitions):
            for at in range(2):
                texts[at], took = run([RTIK, "oracle"], paths[at])
                seconds[at].append(took)
        if texts[0] != texts[1]:
            sys.exit("the texts differ")
        three, two = (statistics.median(s) for s in seconds)
        print("oracle: version 3 %.3f s, its twin %.3f s, ratio %.3f" % (three, two, three / two))
        paths = [write(folder, "3.json", regional(9, False)), write(folder, "2.json", twin(9, False))]
        for word, path in (("regions", paths[0]), ("check", paths[1])):
            took = sum(run([RTIK, word], path)[1] for _ in range(1000))
            print("%s: %.0f microseconds a run, %d bytes" % (word, took * 1e3, os.path.getsize(path)))


if __name__ == "__main__":
    main()
