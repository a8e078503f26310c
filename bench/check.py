#!/usr/bin/env python3
"""Measures `rtik check`, beside `rtik oracle` and, if they are given, other programs.

check.py [--beside "COMMAND WORDS"] [--alone "COMMAND WORDS"] [--read "COMMAND WORDS"]
         [--repetitions N] [--only NAME,..] [FILE ..]

The loads and the way of measuring are those of oracle.py: the median processor
time of N runs, taken in turns, with the start of the process. Another program
(--beside) gets the file on its standard input, and its bytes must be those of
`rtik check`. --alone names a program that reads the file and simulates it and
makes no text, and --read one that only reads the file: with both, the last
column is what `check` takes for each second that the simulation alone takes,
the reading of the file left out of both.

The program must have been built: ./rtik at the top does that."""
import argparse
import os
import shlex
import statistics
import sys

from oracle import RTIK, each_load, run


def measure(name, path, commands, repetitions):
    seconds = {title: [] for title in commands}
    outputs = {}
    titles = list(commands)
    for turn in range(repetitions):
        for k in range(len(titles)):
            title = titles[(k + turn) % len(titles)]
            outputs[title], took = run(commands[title], path)
            seconds[title].append(took)
    if "beside" in outputs and outputs["beside"] != outputs["check"]:
        sys.exit("%s: the texts differ" % name)
    middle = {title: statistics.median(seconds[title]) for title in titles}
    row = [name] + ["%.3f" % middle[title] for title in titles]
    if "alone" in middle and "read" in middle:
        row.append("%.2f" % ((middle["check"] - middle["read"]) / max(middle["alone"] - middle["read"], 1e-6)))
    print("  ".join("%9s" % cell for cell in row), flush=True)


def main():
    parser = argparse.ArgumentParser(usage=__doc__)
    for option in ("--beside", "--alone", "--read", "--only"):
        parser.add_argument(option, default="")
    parser.add_argument("--repetitions", type=int, default=5)
    parser.add_argument("files", nargs="*")
    args = parser.parse_args()
    if not os.path.exists(RTIK):
        sys.exit("build the program first: ./rtik")
    commands = {"check": [RTIK, "check"], "oracle": [RTIK, "oracle"]}
    for title in ("beside", "alone", "read"):
        if getattr(args, title):
            commands[title] = shlex.split(getattr(args, title))
    both = ["ratio"] if "alone" in commands and "read" in commands else []
    print("  ".join("%9s" % cell for cell in ["load"] + list(commands) + both))
    each_load(args, lambda name, path: measure(name, path, commands, args.repetitions))


if __name__ == "__main__":
    main()
