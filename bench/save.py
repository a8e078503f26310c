#!/usr/bin/env python3
"""Measures `rtik save` beside `rtik upto`, and `rtik resume` beside the rest of `rtik oracle`.

save.py [--repetitions N] [--only NAME,..] [FILE ..]

The loads and the way of measuring are those of oracle.py: the median processor
time of N runs, taken in turns, with the start of the process. Each file is saved
at half its end time. Printed are the seconds of `upto` and `save` at that time,
of `resume` on what was saved, and of `oracle` and `upto 0` (which reads the file
and simulates nothing); then what `save` takes for each second of `upto`, and
`resume` for each second of the rest, which is `oracle` less `upto`, and the
reading and the start, which `upto 0` takes. A load whose saved file would be too
long is named with the status of `save`.

The program must have been built: ./rtik at the top does that."""
import argparse
import json
import os
import statistics
import subprocess
import sys
import tempfile

from oracle import RTIK, each_load, run


def measure(name, path, repetitions):
    with open(path) as file:
        half = str(json.load(file)["end"] // 2)
    with tempfile.NamedTemporaryFile() as saved:
        with open(path, "rb") as file:
            status = subprocess.run([RTIK, "save", half], stdin=file, stdout=saved).returncode
        if status != 0:
            print("%9s  save ends with status %d" % (name, status), flush=True)
            return
        commands = {"upto": (["upto", half], path), "save": (["save", half], path), "resume": (["resume"], saved.name),
                    "oracle": (["oracle"], path), "begin": (["upto", "0"], path)}
        titles = list(commands)
        seconds = {title: [] for title in titles}
        outputs = {}
        for turn in range(repetitions):
            for k in range(len(titles)):
                title = titles[(k + turn) % len(titles)]
                words, given = commands[title]
                outputs[title], took = run([RTIK] + words, given)
                seconds[title].append(took)
    if outputs["upto"] + outputs["resume"] != outputs["oracle"]:
        sys.exit("%s: what is resumed is not the rest" % name)
    middle = {title: statistics.median(seconds[title]) for title in titles}
    rest = middle["oracle"] - middle["upto"] + middle["begin"]
    row = [name] + ["%.3f" % middle[title] for title in titles]
    row += ["%.2f" % (middle["save"] / middle["upto"]), "%.2f" % (middle["resume"] / max(rest, 1e-6))]
    print("  ".join("%9s" % cell for cell in row), flush=True)


def main():
    parser = argparse.ArgumentParser(usage=__doc__)
    parser.add_argument("--repetitions", type=int, default=5)
    parser.add_argument("--only", default="")
    parser.add_argument("files", nargs="*")
    args = parser.parse_args()
    if not os.path.exists(RTIK):
        sys.exit("build the program first: ./rtik")
    head = ["load", "upto", "save", "resume", "oracle", "begin", "to upto", "to rest"]
    print("  ".join("%9s" % cell for cell in head))
    each_load(args, lambda name, path: measure(name, path, args.repetitions))


if __name__ == "__main__":
    main()
