#!/usr/bin/env python3
"""Measures `rtik run W`, beside `rtik oracle` and, if they are given, other parallel simulators.

run.py [--program PATH] [--yardstick FOLDER] [--workers 1,2,4] [--repetitions N]
       [--only NAME,..] [FILE ..]

The loads are those of oracle.py, with larger pools where their own are short, as
replay.py has them, and trial0, a file of the federation that the generator makes
of the number 0. A program that knows the word `trial` is measured with
`trial 0 W` too. FOLDER has the programs `threadsim` and `nullmsg`, each of which
takes `--threads W -` for a file on its standard input and `--threads W --gen S`
for the generator's federation of a number.

Each repetition runs every command once, in an order that turns, with the output
thrown away; before that the texts are compared. For each command the medians are
printed of the seconds of the clock and of the processor (with the start of the
process and the reading of the file), and the greatest memory. Then come ratios
for each number of workers: to threadsim, to nullmsg and to oracle, each by the
clock and by the processor; to the same program with one worker, by the clock; and
the memory to that of oracle. The memory of this script, about 25 MB, is the least
that can be seen of another.

The program is the one that ./rtik at the top has built, if no other is given."""
import argparse
import hashlib
import json
import os
import statistics
import subprocess
import sys
import tempfile
import time

from oracle import RTIK, each_load, federate, federation
from replay import with_pools

TRIAL = 0


def pick(number, place, count):
    return ((number + place) * 2654435761 % 2**32 >> 16) % count


def generated(number):
    """The federation that the generator makes of a number, as a file of it says."""
    count = 4 + pick(number, 1, 13)
    federates = []
    for i in range(count):
        lookahead = 1 + pick(number, 100 + i, 5)
        advance = {"tar": 1 + pick(number, 200 + i, 9)} if i % 2 == 0 else {"ner": 5 + pick(number, 300 + i, 20)}
        before, third = ({"got": "g%d" % ((i - k) % count)} for k in (1, 3))
        rules = [
            {"on": before, "do": [{"add": "sum", "by": "$value"}]},
            {"on": third, "do": [{"add": "sum", "by": "$value"}, {"add": "hits", "by": 1}]},
            {"on": third, "if": [{"left": "hits", "is": "ge", "right": 3}], "do": [{"retract": "last"}, {"set": "hits", "to": 0}]},
            {"on": "grant", "do": [{"send": "g%d" % i, "delay": lookahead + pick(number, 400 + i, 4), "value": "$now", "keep": "last"}]},
        ]
        federates.append(federate("f%d" % i, lookahead, advance, ("sum", "hits", "last"), rules))
    groups = [{"name": "g%d" % g, "members": ["f%d" % ((g + k) % count) for k in (1, 3)]} for g in range(count)]
    return federation(2000, federates, groups)


def text_sum(command, path):
    """The exit status and a sum of the output, which is not kept: this script is to stay small."""
    with open(path, "rb") as file:
        child = subprocess.Popen(command, stdin=file, stdout=subprocess.PIPE)
        taken = hashlib.sha256()
        while piece := child.stdout.read(65536):
            taken.update(piece)
        return child.wait(), taken.digest()


def run(command, path):
    """The seconds of the clock and of the processor, and the megabytes, of one run."""
    with open(path, "rb") as file:
        begun = time.perf_counter()
        child = subprocess.Popen(command, stdin=file, stdout=subprocess.DEVNULL)
        _, status, usage = os.wait4(child.pid, 0)
        took = time.perf_counter() - begun
        child.returncode = os.waitstatus_to_exitcode(status)
    return took, usage.ru_utime + usage.ru_stime, usage.ru_maxrss / 1024


def with_texts_alike(name, commands):
    """Ends where the texts differ."""
    texts = {title: text_sum(command, path) for title, (command, path) in commands.items()}
    first = next(iter(texts))
    for title in texts:
        if texts[title] != texts[first] or texts[title][0] != 0:
            sys.exit("%s: %s and %s end differently" % (name, first, title))


def measured(commands, repetitions):
    """For each command the medians of seconds, and the greatest memory."""
    titles = list(commands)
    runs = {title: [] for title in titles}
    for turn in range(repetitions):
        for k in range(len(titles)):
            title = titles[(k + turn) % len(titles)]
            runs[title].append(run(*commands[title]))
    return {
        title: (statistics.median(r[0] for r in all_runs), statistics.median(r[1] for r in all_runs), max(r[2] for r in all_runs))
        for title, all_runs in runs.items()
    }


def ratios(row, title, base):
    """The ratios by the clock and by the processor."""
    if base not in row:
        return ["-", "-"]
    return ["%.2f" % (row[title][k] / max(row[base][k], 1e-6)) for k in (0, 1)]


def print_line(cells):
    print("  ".join("%9s" % cell for cell in cells), flush=True)


def print_load(name, row, workers):
    for title, (wall, processor, megabytes) in row.items():
        print_line([name, title, "%.3f" % wall, "%.3f" % processor, "%.1f" % megabytes])
    print_line(["", "", "/threads", "cpu", "/messages", "cpu", "/oracle", "cpu", "/one", "memory"])
    for w in workers:
        title = "run %d" % w
        memory = "%.2f" % (row[title][2] / row["oracle"][2]) if "oracle" in row else "-"
        line = [name, title] + ratios(row, title, "threads %d" % w) + ratios(row, title, "messages %d" % w)
        print_line(line + ratios(row, title, "oracle") + ratios(row, title, "run %d" % workers[0])[:1] + [memory])


def beside(args, words, path):
    """The commands of the other simulators, which know no pools, with their input."""
    commands = {}
    for w in args.workers if args.yardstick else ():
        for title, program in (("threads", "threadsim"), ("messages", "nullmsg")):
            command = [os.path.join(args.yardstick, program), "--threads", str(w)] + words
            commands["%s %d" % (title, w)] = (command, path)
    return commands


def measure(name, path, args):
    with tempfile.TemporaryDirectory() as folder:
        pooled = with_pools(path, folder, args.program)
        commands = {"oracle": ([args.program, "oracle"], pooled)}
        commands.update({"run %d" % w: ([args.program, "run", str(w)], pooled) for w in args.workers})
        commands.update(beside(args, ["-"], path))
        with_texts_alike(name, commands)
        print_load(name, measured(commands, args.repetitions), args.workers)


def measure_trial(args):
    """The word `trial`, where the program knows it."""
    if text_sum([args.program, "trial", str(TRIAL), "1"], os.devnull)[0] != 0:
        return
    words = [args.program, "trial", str(TRIAL)]
    commands = {"run %d" % w: (words + [str(w)], os.devnull) for w in args.workers}
    commands.update(beside(args, ["--gen", str(TRIAL)], os.devnull))
    with_texts_alike("trial %d" % TRIAL, commands)
    print_load("trial %d" % TRIAL, measured(commands, args.repetitions), args.workers)


def main():
    parser = argparse.ArgumentParser(usage=__doc__)
    parser.add_argument("--program", default=RTIK)
    parser.add_argument("--yardstick", default="")
    parser.add_argument("--workers", type=lambda text: [int(word) for word in text.split(",")], default=[1, 2, 4])
    parser.add_argument("--repetitions", type=int, default=5)
    parser.add_argument("--only", default="")
    parser.add_argument("files", nargs="*")
    args = parser.parse_args()
    args.program = os.path.abspath(args.program)
    if not os.path.exists(args.program):
        sys.exit("build the program first: ./rtik")
    print_line(["load", "command", "clock s", "cpu s", "MB"])
    only = set(filter(None, args.only.split(",")))
    each_load(args, lambda name, path: measure(name, path, args))
    if args.files or only and "trial%d" % TRIAL not in only:
        return
    with tempfile.TemporaryDirectory() as folder:
        path = os.path.join(folder, "trial.json")
        with open(path, "w") as file:
            json.dump(generated(TRIAL), file)
        measure("trial%d" % TRIAL, path, args)
    measure_trial(args)


if __name__ == "__main__":
    main()
