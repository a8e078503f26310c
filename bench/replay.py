#!/usr/bin/env python3
"""Measures `rtik replay` with a fair schedule, beside `rtik oracle`.

replay.py [--repetitions N] [--only NAME,..] [FILE ..]
replay.py --figures [--repetitions N]

The loads and the way of measuring are those of oracle.py: the median processor
time of N runs, taken in turns, with the start of the process. Where the pools are
smaller than what `rtik check` says, they are made as large as they may be. The
schedule gives each federate a turn, again and again, four times as often at each
trial until the run is done; the texts must be the same. Printed are the seconds of
both, their ratio, the turns of the schedule, the nanoseconds that a turn takes, and
the greatest memory of a replay as a multiple of that of oracle. With more turns than the run needs, those at its end find their nodes finished.

With --figures it prints what a turn that finds nothing to do takes, a message, each
further receiver of a message, and a round of the reduction, each among 16
federates: the difference between two loads that differ in nothing else, divided by
how many more of them the second has.

The program must have been built: ./rtik at the top does that."""
import argparse
import json
import os
import statistics
import subprocess
import sys
import tempfile

from oracle import RTIK, each_load, federate, federation, run

LETTERS = "abcdefghijklmnop"
MOST_PASSES = 1_000_000


def with_pools(path, folder, program=RTIK):
    """The file, or one with the greatest pools where its own are short."""
    if b" short\n" not in run([program, "check"], path)[0]:
        return path
    with open(path) as file:
        made = json.load(file)
    made["version"], made["buffers"] = 2, 1024
    path = os.path.join(folder, "pools.json")
    with open(path, "w") as file:
        json.dump(made, file)
    return path


def words_until_done(path):
    """The words of a fair schedule with which the run is done, and its turns."""
    with open(path) as file:
        count = len(json.load(file)["federates"])
    passes = 64
    while passes < MOST_PASSES:
        passes = min(4 * passes, MOST_PASSES)
        words = ["replay", "%d*%s" % (passes, LETTERS[:count])]
        if not run([RTIK] + words, path)[0].startswith(b"fault"):
            return words, passes * count
    return None, 0


def memory(command, path):
    """The greatest memory of one run, in MB, read by a small process: this one's would count too."""
    script = (
        "import resource, subprocess, sys\n"
        "subprocess.run(sys.argv[1:], stdout=subprocess.DEVNULL)\n"
        "print(resource.getrusage(resource.RUSAGE_CHILDREN).ru_maxrss)\n"
    )
    with open(path, "rb") as file:
        told = subprocess.run([sys.executable, "-c", script] + command, stdin=file, stdout=subprocess.PIPE)
    return int(told.stdout) / 1024


def measure(name, path, repetitions):
    with tempfile.TemporaryDirectory() as folder:
        path = with_pools(path, folder)
        words, turns = words_until_done(path)
        if not words:
            print("%9s  not done after %d turns of each federate" % (name, MOST_PASSES), flush=True)
            return
        seconds = {"oracle": [], "replay": []}
        texts = {}
        for _ in range(repetitions):
            for title, command in (("oracle", ["oracle"]), ("replay", words)):
                texts[title], took = run([RTIK] + command, path)
                seconds[title].append(took)
        if texts["oracle"] != texts["replay"]:
            sys.exit("%s: the texts differ" % name)
        room = memory([RTIK] + words, path) / memory([RTIK, "oracle"], path)
    oracle, replay = (max(statistics.median(seconds[title]), 1e-6) for title in ("oracle", "replay"))
    row = [name, "%.3f" % oracle, "%.3f" % replay, "%.2f" % (replay / oracle), str(turns), "%.0f" % (replay / turns * 1e9), "%.2f" % room]
    print("  ".join("%9s" % cell for cell in row), flush=True)


def sending(count, members):
    """Each of 16 federates sends so many messages to so many others at each of 1,000 grants."""
    names = ["f%d" % i for i in range(16)]
    groups = [
        {"name": "g%d" % i, "members": [names[(i + k) % 16] for k in range(1, members + 1)]}
        for i in range(16)
    ]
    federates = []
    for i, name in enumerate(names):
        do = [{"send": "g%d" % i, "delay": 1, "value": 0}] * count
        rules = [{"on": "grant", "do": do}] if do else []
        federates.append(federate(name, 1, {"tar": 1}, (), rules))
    return federation(1000, federates, groups)


def stepping(end):
    """No messages: each federate asks for the next unit of time, so each has one round."""
    return federation(end, [federate("f%d" % i, 1, {"tar": 1}) for i in range(16)], [])


def fair(passes):
    """The words of a schedule with so many turns of each of 16 federates."""
    return ["replay", "%d*%s" % (passes, LETTERS)]


def passes_needed(path):
    """How many turns of each federate a run needs, to a hundredth."""
    enough = words_until_done(path)[1] // 16
    short = 0
    while enough - short > enough // 100 + 1:
        middle = (short + enough) // 2
        if run([RTIK] + fair(middle), path)[0].startswith(b"fault"):
            short = middle
        else:
            enough = middle
    return enough


def replay_seconds(made, repetitions, more=0):
    """The median seconds of a replay with the turns that it needs and so many more of each federate,
    and how many turns those are."""
    with tempfile.TemporaryDirectory() as folder:
        path = os.path.join(folder, "load.json")
        with open(path, "w") as file:
            json.dump(made, file)
        path = with_pools(path, folder)
        passes = passes_needed(path) + more
        took = [run([RTIK] + fair(passes), path)[1] for _ in range(repetitions)]
    return statistics.median(took), passes * 16


def figures(repetitions):
    """Prints nanoseconds for a turn, a message, a further receiver and a round."""
    once, turns = replay_seconds(stepping(2), repetitions)
    often, more_turns = replay_seconds(stepping(2), repetitions, 500_000)
    idle_turn = (often - once) / (more_turns - turns)
    few, few_turns = replay_seconds(stepping(10_000), repetitions)
    many, many_turns = replay_seconds(stepping(50_000), repetitions)
    rounds = 50_000 - 10_000
    none, _ = replay_seconds(sending(0, 1), repetitions)
    one, _ = replay_seconds(sending(8, 1), repetitions)
    all_others, _ = replay_seconds(sending(8, 15), repetitions)
    messages = 16 * 8 * 1000
    for name, seconds in (
        ("a turn of a node that has finished", idle_turn),
        ("a round among 16, with their grants", (many - few) / rounds),
        ("a turn of such a round", (many - few) / (many_turns - few_turns)),
        ("a message with one receiver", (one - none) / messages),
        ("each further receiver", (all_others - one) / messages / 14),
    ):
        print("%40s  %10.0f ns" % (name, seconds * 1e9), flush=True)


def main():
    parser = argparse.ArgumentParser(usage=__doc__)
    parser.add_argument("--only", default="")
    parser.add_argument("--repetitions", type=int, default=5)
    parser.add_argument("--figures", action="store_true")
    parser.add_argument("files", nargs="*")
    args = parser.parse_args()
    if not os.path.exists(RTIK):
        sys.exit("build the program first: ./rtik")
    if args.figures:
        figures(args.repetitions)
        return
    print("  ".join("%9s" % cell for cell in ["load", "oracle s", "replay s", "ratio", "turns", "ns/turn", "memory"]))
    each_load(args, lambda name, path: measure(name, path, args.repetitions))


if __name__ == "__main__":
    main()
